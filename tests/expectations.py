"""What an explanation says was expected, by the word for it in docs/FORMATS.md and positions.txt; in place
of Index, these say which number is due."""

NUMBERS = {
    "Player": "a player's number (1 for the first player)",
    "Set": "the number of the information set (a whole number from 1 to 4,294,967,295)",
    "NodeOutcome": "the number of the node's outcome (0 if there is none, and at most 4,294,967,295)",
    "Count": "the number of a player's strategies (a whole number from 1 to 4,294,967,295)",
    "ProfileOutcome": "the number of a profile's outcome (0 if there is none)",
}
DUE = {
    **NUMBERS,
    "Format": "`NFG` or `EFG` at the start of the file",
    "Version": "version 1 (after NFG) or version 2 (after EFG)",
    "Letter": "`R` or `D`",
    "Text": "a text in double quotes",
    "Opening": "`{`",
    "Closing": "`}`",
    "Number": "a number",
    "Strategies": "the number of strategies of each player, or lists of their labels",
    "Node": "a node: `c`, `p` or `t`",
    "End": "the end of the file",
}
