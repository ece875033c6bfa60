"""The meaning of each cause of a no, in a line each."""

MEANING = {
    "FlagOut": "the flag or number rules a certificate out: T isn't such a terminal",
    "Absent": "a required string isn't there",
    "AcsByte": "a partner of `acsc` isn't 32 to 126 (code page 437)",
    "Underflow": "a code of the string finds no value",
    "BadNest": "the conditionals of the string don't close as they open",
    "BadCode": "a `%` begins no code",
    "Overflow": "a number of the string is out of range",
    "BadChar": "`%c` gets a number that is no character",
    "WrongKind": "a code gets a number for a string, or a string for a number",
    "StaticRead": "the string reads a static variable before it sets it",
    "Unfinished": "what is sent ends within a sequence",
    "Stuck": "a byte on which terminals differ",
    "NotTame": "not judged: no single effect describes what is sent",
    "NotShown": "not judged: no state was found from which it goes wrong",
    "BadLook": "an attribute has another one's look",
    "WrongEffect": "what is sent does something else on T",
    "TooLong": "the certificate is longer than it may be",
    "NoResync": "no string brings a terminal back from what was cut off",
}
