"""Names and words for numbers: bits from TS 29.272, codes in the words of document 01."""

# Clause 7.3.31, table 7.3.31/1; bits 30 and 31 have no name there.
RESTRICTIONS = {
    0: "UTRAN-Not-Allowed", 1: "GERAN-Not-Allowed", 2: "GAN-Not-Allowed", 3: "I-HSPA-Evolution-Not-Allowed", 4: "WB-E-UTRAN-Not-Allowed",
    5: "HO-To-Non-3GPP-Access-Not-Allowed", 6: "NB-IoT-Not-Allowed", 7: "Enhanced-Coverage-Not-Allowed",
    8: "NR-as-Secondary-RAT-in-E-UTRAN-Not-Allowed", 9: "Unlicensed-Spectrum-as-Secondary-RAT-Not-Allowed", 10: "NR-in-5GS-Not-Allowed",
    11: "LTE-M-Not-Allowed", 12: "WB-E-UTRAN-Except-LTE-M-Not-Allowed", 13: "WB-E-UTRAN(LEO)-Not-Allowed", 14: "WB-E-UTRAN(MEO)-Not-Allowed",
    15: "WB-E-UTRAN(GEO)-Not-Allowed", 16: "WB-E-UTRAN(OTHERSAT)-Not-Allowed", 17: "NB-IoT(LEO)-Not-Allowed", 18: "NB-IoT(MEO)-Not-Allowed",
    19: "NB-IoT(GEO)-Not-Allowed", 20: "NB-IoT(OTHERSAT)-Not-Allowed", 21: "LTE-M(LEO)-Not-Allowed", 22: "LTE-M(MEO)-Not-Allowed",
    23: "LTE-M(GEO)-Not-Allowed", 24: "LTE-M(OTHERSAT)-Not-Allowed", 25: "NR(LEO)-Not-Allowed", 26: "NR(MEO)-Not-Allowed",
    27: "NR(GEO)-Not-Allowed", 28: "NR(OTHERSAT)-Not-Allowed", 29: "NR-RedCap-not-allowed-as-primary-RAT",
}
# Bytes 20 and 56 of a record.
SUBSCRIPTION = {0: "EPS", 1: "GPRS"}
PURGED = {0: "MME", 1: "SGSN"}

# Flag words of messages: clauses 7.3.31, 7.3.7, 7.3.8, 7.3.149, 7.3.48, 7.3.49.
FLAG_WORDS = {
    "Access-Restriction-Data": RESTRICTIONS,
    "ULR-Flags": {
        0: "Single-Registration-Indication", 1: "S6a/S6d-Indicator", 2: "Skip-Subscriber-Data", 3: "GPRS-Subscription-Data-Indicator",
        4: "Node-Type-Indicator", 5: "Initial-Attach-Indicator", 6: "PS-LCS-Not-Supported-By-UE", 7: "SMS-Only-Indication",
        8: "Dual-Registration-5G-Indicator", 9: "Inter-PLMN-inter-MME-handover", 10: "Intra-PLMN-inter-MME-handover",
    },
    "ULA-Flags": {0: "Separation-Indication", 1: "MME-Registered-for-SMS"},
    "PUR-Flags": {0: "UE-Purged-in-MME", 1: "UE-Purged-in-SGSN"},
    "PUA-Flags": {0: "Freeze-M-TMSI", 1: "Freeze-P-TMSI"},
    "NOR-Flags": {
        0: "Single-Registration-Indication", 1: "SGSN-area-restricted", 2: "Ready-for-SM-from-SGSN", 3: "UE-Reachable-from-MME", 4: "Reserved",
        5: "UE-Reachable-from-SGSN", 6: "Ready-for-SM-from-MME", 7: "Homogeneous-Support-of-IMS-Voice-Over-PS-Sessions", 8: "S6a/S6d-Indicator",
        9: "Removal-of-MME-Registration-for-SMS",
    },
}

# Words behind a number, in brackets; 01's where it has some. A Result-Code and an Experimental-Result-Code are separate numberings.
MEANINGS = {
    "Result-Code": {
        2001: "success", 3001: "command not 316, 321, 323", 3007: "application not 16777251", 3008: "E bit set",
        5001: "unknown AVP with M set; the first", 5005: "a required AVP absent", 5009: "second of an AVP that the command uses",
        5004: "User-Name not 6–15 digits, Origin-Host not 1–64 name bytes, Visited-PLMN-Id not 3 bytes or IMEI not 14 or 15 digits; "
              "or an entered group inside eight others",
        5011: "version not 1", 5014: "wrong length or data size", 5015: "length field not the bytes given, or no multiple of 4",
    },
    "Experimental-Result-Code": {
        5001: "no such IMSI", 5004: "PLMN list not empty and lacks the visited one", 5420: "S6a without EPS subscription, or S6d with neither",
        5421: "RAT refused", 5423: "sender is neither registered node",
    },
    "RAT-Type": {1000: "UTRAN", 1001: "GERAN", 1002: "GAN", 1003: "HSPA_EVOLUTION", 1004: "EUTRAN", 1005: "EUTRAN-NB-IoT"},
    "Cancellation-Type": {
        0: "MME_UPDATE_PROCEDURE", 1: "SGSN_UPDATE_PROCEDURE", 2: "SUBSCRIPTION_WITHDRAWAL", 3: "UPDATE_PROCEDURE_IWF", 4: "INITIAL_ATTACH_PROCEDURE",
    },
    "Auth-Session-State": {0: "STATE_MAINTAINED", 1: "NO_STATE_MAINTAINED"},
    "Subscriber-Status": {0: "SERVICE_GRANTED", 1: "OPERATOR_DETERMINED_BARRING"},
    "Vendor-Id": {10415: "3GPP"},
    "command": {316: "Update-Location", 321: "Purge-UE", 323: "Notify"},
    "application": {16777251: "S6a/S6d"},
}


def with_meaning(what, number):
    meaning = MEANINGS.get(what, {}).get(number)
    return f"{number} ({meaning})" if meaning else str(number)


def without_meaning(text):
    """The number before the words in brackets, which are for the reader only."""
    return text.partition("(")[0].strip()
