"""The forms of words in texts of tables, feeds and journals (docs/PROTOCOL.md)."""
import re

PROTOCOL_NAMES = {
    "TASE2_Version", "Supported_Features", "Bilateral_Table_ID", "Next_DSTransfer_Set",
    "Transfer_Set_Name", "Transfer_Set_Time_Stamp", "DSConditions_Detected", "Event_Code_Detected"}
COMPONENTS = ("value", "time", "millis", "flags", "cov")
PLAIN = "A-Za-z0-9_$.-"


def words_of(line):
    """The words of a line; None where it has a tab, or begins or ends with a space."""
    if "\t" in line or line != line.strip(" "):
        return None
    return [word for word in line.split(" ") if word]


def number_in(word, highest):
    """The decimal number from 0 to the highest that a word is, or None."""
    if not word.isascii() or not word.isdigit() or len(word) > 20:
        return None
    if word[0] == "0" and word != "0":
        return None
    return int(word) if int(word) <= highest else None


def signed_in(word, bits):
    """The signed decimal number of so many bits that a word is, or None."""
    if re.fullmatch("0|-?[1-9][0-9]*", word) and len(word) < 21:
        number = int(word)
        if -(1 << bits - 1) <= number < 1 << bits - 1:
            return number
    return None


def is_name(word):
    """Whether a word may be the name of a point or a device."""
    return (re.fullmatch("[A-Za-z][A-Za-z0-9_]{0,23}", word) is not None
            and not word.endswith(("_SBO", "_TAG", "_TIMEOUT"))
            and not word.startswith("DSTrans") and word not in PROTOCOL_NAMES)


def is_identifier(word):
    return re.fullmatch("[A-Za-z0-9_$]{1,32}", word) is not None


def is_title(word):
    """Whether a word is an application process title, or `*` for none."""
    if word == "*":
        return True
    parts = [number_in(part, 2147483647) for part in word.split(".")]
    return 2 <= len(parts) <= 8 and None not in parts and parts[0] <= 2 and parts[1] < 40


def is_layout(word):
    return all(part in COMPONENTS for part in word.split(","))


def unescaped(word):
    """The text that an escaped word stands for, or None."""
    if not re.fullmatch(f"(?:[{PLAIN}]|%[0-9a-f][0-9a-f])*", word):
        return None
    octets = [chr(int(it, 16)) for it in re.findall("%(..)", word)]
    if any(re.fullmatch(f"[{PLAIN}]", octet) for octet in octets):
        return None
    return re.sub("%(..)", lambda it: chr(int(it[1], 16)), word)


def is_visible(text):
    """Whether a text has at most 64 octets, all of them printing characters or spaces."""
    return len(text) <= 64 and all(" " <= octet <= "~" for octet in text)
