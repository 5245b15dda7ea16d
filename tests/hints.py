"""Says which hint is due for a refused file, by the calls of reference_reader.py that were under way.

So where a mistake stands is known from the grammar, and not, as in the program, from the tokens around it.
`tests/mutated` compares the program with it.
"""
import re

import reference_reader as reader

# Codes of tokens that are refused for what they are, and not for their values.
OF_FORM = {2, 3, 4, 7, 9, 10}
OF_CODES = {
    2: 'a quotation mark inside a label is written \\" ; a label cannot end in a backslash',
    4: "write 3, -0.5, 1e-3 or 1/3",
    6: "numerators and denominators have at most 127 bits; at most 38 digits after the point",
    10: "repeat it, leave it out, or give what is different a new number",
    12: "probabilities are exact: write 1/6 rather than 0.166667, and 1/2 rather than 50",
    13: "probabilities are exact: write 1/3 rather than 0.333",
}
NAME = 'a name comes before the braces, perhaps ""'
COMMENT = "a file has one comment, and this would be a second one"
PAYOFFS = "give one payoff for each player; decimals have a point, not a comma"
COUNTS = "give one number of strategies for each player"
CAPITAL = "write it in capital letters"
NOT_CLOSED = "perhaps a closing brace is missing before this"
CHANCE = f"only the actions of chance moves have probabilities; {NOT_CLOSED}"
LISTS = "give one list of strategies for each player"
FORMATS = [
    (rb"\xef\xbb\xbf", "the file begins with a byte order mark; save it as UTF-8 without one"),
    (
        rb"\xff\xfe|\xfe\xff|\0?[EN]\0F\0G",
        "the file seems to be UTF-16; save it as UTF-8 without a byte order mark",
    ),
    (rb"<\?xml", "this is XML, perhaps a workbook of Gambit (.gbt); save its game as .efg or .nfg"),
    (rb"(?i:[EN]FG)\Z", CAPITAL),
    (rb"#B?AGG\Z", "this is an action graph game (.agg, .bagg), which gamefile does not read"),
]
SPELLINGS = [
    (
        rb"//|/\*|#",
        "a file has one comment, a text in double quotes after the players (EFG) or the strategies (NFG)",
    ),
    (rb"\xe2\x80[\x98-\x9f]|\xc2\xab|['`]", 'texts stand in straight double quotes, as in "A"'),
    (
        rb"\xe2\x80[\x90-\x95]|\xe2\x88\x92",
        "this begins with a dash or a minus sign that is not - (U+2212, or U+2010 to U+2015)",
    ),
    (rb'[^"]*\xc2\xa0', "this has a no-break space (U+00A0) in it; write a space"),
]


def first_of(pairs, spelled):
    """The hint of the first pattern that a token begins with."""
    return next((hint for pattern, hint in pairs if re.match(pattern, spelled)), None)


class Scene:
    """A refusal, with the calls that were under way and the tokens before it."""

    def __init__(self, data, refusal):
        self.refusal, self.data, self.calls = refusal, data, {}
        trace = refusal.__traceback__
        while trace:
            self.calls[trace.tb_frame.f_code.co_name] = trace.tb_frame.f_locals
            trace = trace.tb_next
        self.reader = self.calls["refuse"]["self"]
        self.token = self.reader.token
        found = reader.TOKEN.finditer(data[: refusal.start])
        self.before = [(it.lastgroup, it[it.lastgroup], it.start(it.lastgroup)) for it in found if it.lastgroup]

    def follows(self, kind):
        return bool(self.before) and self.before[-1][0] == kind

    def ends_in_closing(self):
        return bool(self.before) and self.before[-1][1] == b"}"

    def ends_in_value(self):
        """Whether the last token is a payoff or a probability."""
        lists = {"payoffs", "flat_row", "new_actions", "known_actions"}
        is_body = self.refusal.due == "End" and self.calls["game"]["kind"] == "table" and self.groups() == 2
        return self.follows("bare") and (is_body or not lists.isdisjoint(self.calls))

    def groups(self):
        """How many lists are closed that stand in no other."""
        depth = closed = 0
        for _, spelled, _ in self.before:
            depth += {b"{": 1, b"}": -1}.get(spelled, 0)
            closed += spelled == b"}" and depth == 0
        return closed

    def depth(self):
        return sum({b"{": 1, b"}": -1}.get(spelled, 0) for _, spelled, _ in self.before)

    def is_numeric(self):
        return re.match(rb"[0-9.+-]", self.token.spelled) is not None

    def is_joined(self):
        """Whether the token is joined to a text: a bare token, a text or a quote."""
        if not self.follows("text") or self.token.kind not in ("text", "bare", "broken"):
            return False
        _, text, start = self.before[-1]
        return start + len(text) == self.token.start


def of_token(scene):
    """The hint about the spelling of the token."""
    spelled = scene.token.spelled
    hint = first_of(FORMATS, spelled) if scene.refusal.due == "Format" else None
    hint = hint or first_of(SPELLINGS, spelled)
    if not hint and spelled.startswith(b"/") and scene.ends_in_value():
        return "a fraction has no spaces in it, as in 1/2"
    return hint


def of_text_before(scene):
    """The hint about a text that the token is joined to."""
    if not scene.is_joined():
        return None
    _, text, start = scene.before[-1]
    line, column = scene.data[:start].count(b"\n") + 1, start - scene.data.rfind(b"\n", 0, start)
    begins = f"the text before this begins at line {line}, column {column}"
    if re.search(rb'\\"[ \t\r\n{},]', text[1:-1]):
        return f'{begins}; the \\" in it does not end it, since a label cannot end in a backslash'
    if b"\n" in text:
        return f"{begins} and runs over {text.count(10) + 1} lines; perhaps a quotation mark is missing"
    return f"{begins}; perhaps a quotation mark is missing" if re.search(rb"[{}]", text) else None


def of_outcome(scene, lines):
    """The hint about what describes the outcome of the last node, whose number stands before it."""
    if scene.token.kind not in ("text", "{") or not scene.follows("bare"):
        return None
    if lines[-1][-1] == b"0":
        return "outcome 0 takes no description"
    return NAME if scene.token.kind == "{" else None


def of_node(scene):
    lines = scene.calls["tree"]["lines"]
    if len(lines) == 2:
        root = "the tree begins here, after the players and at most one comment"
        return COMMENT if scene.token.kind == "text" else root
    subtree = "each action needs a subtree"
    missing = f"the tree is incomplete: {subtree}" if scene.token.kind == "end" else subtree
    return of_outcome(scene, lines) or missing


def of_end(scene):
    lines = scene.calls["game"]["lines"]
    if scene.calls["game"]["kind"] == "tree":
        hint = of_outcome(scene, lines)
    else:
        hint = COMMENT if scene.token.kind == "text" and scene.follows("text") else None
    return hint or "the game is already complete here"


def of_number(scene):
    kind, calls = scene.token.kind, scene.calls
    if "flat_row" in calls:
        numbers = 0
        while scene.before[-1 - numbers][0] == "bare":
            numbers += 1
        if kind == "end":
            players, profiles = len(scene.reader.players), calls["table"]["profiles"]
            needed = f"{players * profiles} payoffs (players times profiles, {players} x {profiles})"
            return f"the body has {numbers} of {needed}"
        return COMMENT if kind == "text" and scene.follows("text") else None
    if "payoffs" in calls:
        return PAYOFFS if kind == "}" else None
    return "each action of a chance move has a probability" if kind in ("text", "}") else None


def of_index(scene):
    if "strategies" in scene.calls and scene.token.kind == "}":
        return COUNTS
    if "outcome_rows" in scene.calls and scene.token.kind == "end":
        rows = scene.calls["outcome_rows"]
        needed = f"{rows['profiles']} outcome numbers (one for each profile)"
        return f"the body has {len(rows['rows'])} of {needed}"
    return None


def of_action(scene):
    """The hint about a number where an action or the end of the actions is due."""
    return CHANCE if scene.is_numeric() and scene.calls["infoset"]["player"] else None


def of_text(scene):
    if "infoset" in scene.calls:
        return of_action(scene)
    return 'a node\'s name comes after its letter, perhaps ""' if "node" in scene.calls else None


def of_closing(scene):
    if "known_actions" in scene.calls:
        return of_action(scene)
    if scene.is_numeric():
        if "payoffs" in scene.calls:
            return PAYOFFS
        return NOT_CLOSED if scene.ends_in_closing() else COUNTS
    return LISTS if scene.token.kind == "{" and "payoffs" not in scene.calls else None


def of_opening(scene):
    if "outcome_rows" in scene.calls and scene.ends_in_closing() and scene.is_numeric():
        return NOT_CLOSED
    if scene.is_joined():
        return 'a quotation mark inside a label is written \\"'
    return LISTS if "strategies" in scene.calls and scene.token.kind == "}" else None


def of_expected(scene):
    if scene.token.kind == ",":
        if scene.follows("text") and scene.depth() > 0:
            return "remove the comma: labels are separated by spaces"
        return "a comma may stand only after a payoff in braces; decimals have a point"
    if scene.refusal.due == "Letter":
        return CAPITAL if scene.token.spelled in (b"r", b"d") else None
    of = {"Node": of_node, "End": of_end, "Number": of_number, "Opening": of_opening}
    of |= {"Closing": of_closing, "Text": of_text, "Count": of_index, "ProfileOutcome": of_index}
    return of.get(scene.refusal.due, lambda _: None)(scene)


def hint_at(scene):
    code, hint = scene.refusal.code, None
    if code in OF_FORM:
        hint = of_token(scene) or of_text_before(scene)
    if hint or code != 9:
        return hint or (of_expected(scene) if code == 3 else OF_CODES.get(code))
    return NAME if scene.token.kind == "{" else None


def due_hint(data):
    """The hint that is due for a file that is refused, or None."""
    try:
        reader.read(data)
    except reader.Refusal as refusal:
        return hint_at(Scene(data, refusal))
    raise ValueError("the file is accepted")
