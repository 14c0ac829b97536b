"""The calls of a report as the program `explain` tells them, and how they are shown at a terminal."""
import re

import common

HEAD = re.compile(r"(\d+) (\w+): (.*)")
RULE = re.compile(r"  (\d+) (\?|.*:(\d+)) (\S+?)(?:: not run, (.*)| (\w+(?: \(cached \w+\))?): (.*))")
RESULT = re.compile(r"  returns (\w+), (.*)")


class Call:
    """A run of a stack: its heading, its rules, its result, and the rule that decided."""

    def __init__(self, head):
        self.number, self.call, self.what = head
        self.rules, self.result, self.why, self.said, self.user = [], "", "", [], None

    def decider(self):
        found = re.fullmatch(r"decided by rule (\d+)", self.why)
        return found and found[1]

    def sign(self, rule):
        """`=>` at the rule that decided, `!` at a failure before it that was ignored: often the real cause of a
        denial."""
        place, _, _, code, action, _ = rule
        if place == self.decider():
            return "=>"
        is_failure = code.split()[0] not in ("SUCCESS", "IGNORE", "INCOMPLETE", "-")
        is_before = self.decider() and self.result != "SUCCESS" and int(place) < int(self.decider())
        return "!" if is_before and is_failure and action == "ignore" else ""

    def of_type(self, written):
        """A rule without its type, which the heading names; one with a `-` keeps it."""
        kind, _, rest = written.partition(" ")
        return rest if rest and self.what.startswith(f"{kind.lower()} stack") else written

    def as_json(self):
        rules = [
            {
                "rule": int(place),
                "place": origin,
                "text": written,
                "code": None if code == "-" else code,
                "action": action,
                "state": state,
                "decides": place == self.decider(),
            }
            for place, origin, written, code, action, state in self.rules
        ]
        return {
            "transaction": int(self.number),
            "call": self.call,
            "stack": self.what,
            "rules": rules,
            "result": self.result,
            "why": self.why,
            "said": self.said,
            "user": self.user and common.shown(self.user),
        }

    def heading(self):
        return f"transaction {self.number}: {self.call}, {self.what}"


def calls_in(text, written_at):
    """The calls of what `explain` printed. `written_at` gives a rule's text, of its place and its module."""
    calls = []
    for line in text.splitlines():
        head, rule, result = HEAD.fullmatch(line), RULE.fullmatch(line), RESULT.fullmatch(line)
        if head:
            calls.append(Call(head.groups()))
        elif rule:
            place, origin, _, module, skipped, code, made = rule.groups()
            written = module if origin == "?" else written_at(origin, module)
            if skipped:
                calls[-1].rules.append((place, origin, written, "-", f"not run: {skipped}", ""))
            else:
                action, _, state = made.partition(", ")
                calls[-1].rules.append((place, origin, written, code, action, state))
        elif result:
            calls[-1].result, calls[-1].why = result.groups()
    return calls


def action_in_words(action):
    """What a control did, as `try` says it."""
    kind, _, many = action.partition(" ")
    known = ("ignore", "ok", "done", "bad", "die", "reset")
    return common.words_of(action) if action in known else common.words_of(many) if kind == "jump" else action


def state_in_words(state):
    impression, _, code = state.partition(" ")
    if impression == "undefined":
        return "nothing counted yet"
    return f"fails: {code}" if impression == "negative" else "succeeds" if code == "SUCCESS" else f"so far {code}"


def tone_of(code, state=""):
    if state:
        return "good" if state == "positive SUCCESS" else "bad" if state.startswith("negative") else ""
    return {"SUCCESS": "good", "INCOMPLETE": ""}.get(code, "bad")


def rows_of(call, paint=lambda tone, text: text):
    """The rules of a call, a line for each."""
    rules = [(place, origin, call.of_type(written), *rest) for place, origin, written, *rest in call.rules]
    widths = [max((len(rule[i]) for rule in rules), default=0) for i in range(4)]
    for rule in rules:
        place, origin, written, code, action, state = rule
        front = (
            f"{paint('head', call.sign(rule).rjust(2))} {place.rjust(widths[0])}  {origin.ljust(widths[1])} "
            f" {written.ljust(widths[2])}  {code.ljust(widths[3])}  "
        )
        if code == "-" or not state:
            yield paint("dim" if code == "-" else "", f"{front}{action}".rstrip())
        else:
            yield front + paint(tone_of("", state), action_in_words(action))
