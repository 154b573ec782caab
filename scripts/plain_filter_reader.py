"""A plain reader of filters, by recursion, beside the one that is proved. It prints what `test_values`
must print for the rows of filters on standard input."""
import json
import re
import sys

WORDS = ["all", "none", "default", "platform", "binary_id", "binary", "test", "package", "deps", "rdeps", "kind", "group"]
DEFAULT = {"test": "~", "kind": "="}


class Refused(Exception):
    def __init__(self, name, start, end):
        self.row = (name, start, end)


class Reader:
    def __init__(self, text, kind, graph):
        self.text, self.kind, self.graph, self.at = text, kind, graph, 0
        self.bans = []

    def blanks(self, at):
        while self.text[at:at + 1] in (b" ", b"\n") or self.text[at:at + 2] == b"\r\n":
            at += 2 if self.text[at:at + 1] == b"\r" else 1
        return at

    def has(self, word, at=None):
        return self.text.startswith(word, self.at if at is None else at)

    def fail(self, name, start, end):
        raise Refused(name, start, end)

    def whole(self):
        f = self.either(0)
        if self.blanks(self.at) < len(self.text):
            self.fail("ExpectedEndOfExpression", self.at, len(self.text))
        if self.bans:
            raise Refused(*self.bans[0])
        return f

    def operator(self, words):
        q = self.blanks(self.at)
        for bad, name in ((b"||", "InvalidOrOperator"), (b"OR ", "InvalidOrOperator"), (b"&&", "InvalidAndOperator"), (b"AND ", "InvalidAndOperator")):
            if self.has(bad, q):
                self.fail(name, q, q + len(bad))
        for word in words:
            if self.has(word, q):
                self.at = q + len(word)
                return word
        return None

    def either(self, depth):
        left = self.both(depth)
        while self.operator((b"or ", b"|", b"+")):
            left = ("or", left, self.both(depth))
        return left

    def both(self, depth):
        left = self.unary(depth)
        while True:
            word = self.operator((b"and ", b"&", b"-"))
            if not word:
                return left
            left = ("minus" if word == b"-" else "and", left, self.unary(depth))

    def unary(self, depth):
        p, q = self.at, self.blanks(self.at)
        for word in (b"not ", b"!", b"("):
            if self.has(word, q):
                if depth == 128:
                    self.fail("TooDeeplyNested", q, q + len(word))
                self.at = q + len(word)
                if word != b"(":
                    return ("not", self.unary(depth + 1))
                inside = self.either(depth + 1)
                close = self.blanks(self.at)
                if not self.has(b")", close):
                    self.fail("ExpectedCloseParenthesis", self.at, self.at)
                self.at = close + 1
                return ("par", inside)
        for word in WORDS:
            if self.has(word.encode(), q):
                self.at = q + len(word)
                return self.predicate(word, q)
        self.fail("ExpectedExpr", p, len(self.text))

    def close(self):
        q = self.blanks(self.at)
        if not self.has(b")", q):
            self.fail("UnexpectedComma" if self.has(b",", q) else "ExpectedCloseParenthesis", self.at, self.at)
        self.at = q + 1
        return q

    def predicate(self, word, start):
        q = self.blanks(self.at)
        if not self.has(b"(", q):
            self.fail("ExpectedOpenParenthesis", self.at, self.at)
        inside = self.at = q + 1
        if word in ("all", "none", "default"):
            end = self.text.find(b")", inside)
            end = len(self.text) if end < 0 else end
            if self.text[inside:end].decode().strip():
                self.fail("UnexpectedArgument", inside, end)
            self.at = end
            self.close()
            if word == "default" and self.kind == "default":
                self.bans.append(("BannedPredicate", start, self.at))
            return (word,)
        if word == "platform":
            self.at = self.blanks(inside)
            name = self.string().strip()
            end = self.at
            self.close()
            if name not in ("host", "target"):
                self.fail("InvalidPlatformArgument", inside, end)
            return (name,)
        self.at = self.blanks(inside)
        sign = self.text[self.at:self.at + 1].decode(errors="replace")
        dot = sign not in ("=", "~", "#", "/") or sign == ""
        if dot:
            sign = DEFAULT.get(word, "#")
        else:
            self.at += 1
        begin = self.at
        value = self.regex() if sign == "/" else self.string()
        end = self.at - 1 if sign == "/" else self.at
        if sign == "#" and glob(value) is None:
            self.fail("InvalidGlob", begin, end)
        if sign == "/":
            try:
                re.compile(pythons(value))
            except re.error:
                self.fail("InvalidRegex", begin, end)
        close = self.close()
        if word == "group":
            self.bans.append(("NoTestGroups" if self.kind == "test" else "BannedPredicate", start, self.at))
        if word in ("deps", "rdeps") and self.graph is None:
            self.bans.append(("NoPackageGraph", inside, close))
        return ("ask", word, dot, sign, value, self.text[start:self.at].decode())

    def string(self):
        out = b""
        while self.at < len(self.text) and self.text[self.at:self.at + 1] not in (b",", b")"):
            if not self.has(b"\\"):
                out += self.text[self.at:self.at + 1]
                self.at += 1
                continue
            found = re.match(rb"\\(?:([nrt\\/),])|u\{([0-9a-fA-F]{1,6})\})", self.text[self.at:])
            char = None
            if found and found[1]:
                char = {b"n": "\n", b"r": "\r", b"t": "\t"}.get(found[1], found[1].decode())
            elif found and (int(found[2], 16) < 0xD800 or 0xE000 <= int(found[2], 16) <= 0x10FFFF):
                char = chr(int(found[2], 16))
            if char is None:
                rest = self.text[self.at + 1:].decode()
                self.fail("InvalidEscapeCharacter", self.at, self.at + 1 + len(rest[:1].encode()))
            out += char.encode()
            self.at += len(found[0])
        if not out:
            self.fail("InvalidString", self.at, self.at)
        return out.decode()

    def regex(self):
        begin, out = self.at, b""
        while self.at < len(self.text):
            if self.has(b"\\/"):
                out += b"/"
                self.at += 2
            elif self.has(b"/"):
                self.at += 1
                return out.decode()
            else:
                out += self.text[self.at:self.at + 1]
                self.at += 1
        end = self.text.find(b")", begin)
        end = len(self.text) if end < 0 else end
        self.fail("ExpectedCloseRegex", end, end)


def pythons(regex):
    """Python's regular expression for one of the `regex` crate, where they differ: a code may be
    in braces, counts may have blanks, braces count, and no letter beyond ASCII is escaped."""
    regex = re.sub(r"\\[uUx]{([0-9a-fA-F]{1,6})}", lambda m: "\\U" + m[1].zfill(8), regex)
    regex = re.sub(r"{\s*(\d+)\s*(,?)\s*(\d*)\s*}", r"{\1\2\3}", regex)
    if re.search(r"(?<!\\){(?!\d+(,\d*)?})|\\[^\0-\x7f]", regex):
        raise re.error("not of the `regex` crate")
    return regex


def row(pattern, at, branch):
    """A pattern of Python's for a row of a glob, and the place behind it, or none."""
    out, start, lead, slash, empty = "", at, True, True, True
    while at < len(pattern):
        c = pattern[at]
        if branch and c in ",}":
            break
        if c == "}":
            return None
        if pattern.startswith("**/", at) and slash:
            end = at + 3 == len(pattern) and not branch and lead
            out += ".*" if end else "(?:.*/)?"
            at += 3
            slash, empty = True, False
            continue
        if pattern.startswith("**", at) and branch and lead and at > start and (pattern[at + 2:at + 3] in (",", "}")):
            at += 2
            lead = slash = empty = False
            continue
        lead, slash = False, False
        if c == "*":
            out += ".*"
        elif c == "?":
            out += "."
        elif c == "\\":
            if at + 1 == len(pattern):
                return None
            at += 1
            out += re.escape(pattern[at])
            slash = pattern[at] == "/"
        elif c == "[":
            found = klass(pattern, at + 1)
            if not found:
                return None
            out += found[0]
            at = found[1] - 1
        elif c == "{":
            at += 1
            branches = []
            while True:
                found = row(pattern, at, True)
                if not found or found[1] == len(pattern):
                    return None
                at = found[1]
                if not found[2]:
                    branches.append(found[0])
                if pattern[at] == "}":
                    break
                at += 1
            out += "(?:" + "|".join(branches) + ")" if branches else ""
            empty = empty and not branches
            at += 1
            continue
        else:
            out += re.escape(c)
            slash = c == "/"
        empty = False
        at += 1
    if branch and at == len(pattern):
        return None
    return out, at, empty


def klass(pattern, at):
    negated = pattern[at:at + 1] in ("!", "^") and pattern[at:at + 1] != ""
    at += negated
    end = pattern.find("]", at + 1)
    if end < 0 or not pattern[at:end].isascii():
        return None
    items, body, i = [], pattern[at:end], 0
    while i < len(body):
        if body[i] == "-" and items and i + 1 < len(body):
            if body[i + 1] < items[-1][0]:
                return None
            items[-1] = (items[-1][0], body[i + 1])
            i += 2
        else:
            items.append((body[i], body[i]))
            i += 1
    inner = "".join(re.escape(a) + "-" + re.escape(b) for a, b in items)
    return "[" + ("^" if negated else "") + inner + "]", end + 1


def glob(pattern):
    found = row(pattern, 0, False)
    return None if found is None else found[0]


def special(filter_):
    """Whether a glob of the filter has a special character."""
    if filter_[0] == "ask":
        return filter_[3] == "#" and any(c in filter_[4] for c in "?*[]{}\\" if c != "]")
    return any(special(part) for part in filter_[1:] if isinstance(part, tuple))


def quoted(text):
    for a, b in (("\\", "\\\\"), ("\n", "\\n"), ("\r", "\\r"), ("\t", "\\t"), ('"', '\\"')):
        text = text.replace(a, b)
    return '"' + text + '"'


def reading(f):
    if f[0] == "ask":
        return "(%s %s%s %s)" % (f[1], "." if f[2] else "", f[3], quoted(f[4]))
    if len(f) == 1:
        return f[0]
    return "(" + f[0] + " " + " ".join(reading(part) for part in f[1:]) + ")"


def leaves(f):
    if f[0] == "ask":
        return [quoted(f[5])] if f[1] == "test" else []
    return [leaf for part in f[1:] for leaf in leaves(part)]


def matches(sign, pattern, name):
    if sign == "=":
        return pattern == name
    if sign == "~":
        return pattern in name
    if sign == "/":
        return re.search(pythons(pattern), name) is not None
    return re.fullmatch(glob(pattern).encode("latin1"), name.encode(), re.S) is not None


def members(graph, word, test):
    ids = [p["id"] for p in graph["packages"]]
    name = {p["id"]: p["name"] for p in graph["packages"]}
    deps = {n["id"]: [d["pkg"] for d in n["deps"]] for n in graph["resolve"]["nodes"]}

    def reach(start):
        seen, todo = set(), [start]
        while todo:
            p = todo.pop()
            if p not in seen:
                seen.add(p)
                todo += deps.get(p, [])
        return seen
    inside = graph["workspace_members"]
    found = set()
    for a in inside:
        for b in reach(a):
            if b in inside:
                one, two = (a, b) if word == "deps" else (b, a)
                if test(name[one]):
                    found.add(name[two])
    return found


def value(f, q, default, graph):
    go = lambda part: value(part, q, default, graph)
    if f[0] == "ask":
        _, word, _, sign, pattern, _ = f
        if word == "test":
            return None if q["test"] is None else matches(sign, pattern, q["test"])
        package = q["binary_id"].split("::")[0]
        if word in ("deps", "rdeps"):
            return package in members(graph, word, lambda n: matches(sign, pattern, n))
        if word == "group":
            return False
        return matches(sign, pattern, {"package": package, "binary_id": q["binary_id"], "binary": q["name"], "kind": q["kind"]}[word])
    if f[0] in ("all", "none"):
        return f[0] == "all"
    if f[0] in ("host", "target"):
        return q["platform"] == f[0]
    if f[0] == "default":
        return default
    if f[0] == "par":
        return go(f[1])
    left = go(f[1])
    if f[0] == "not":
        return None if left is None else not left
    right = go(f[2])
    if f[0] == "minus":
        right = None if right is None else not right
    if f[0] == "or":
        return True if True in (left, right) else (None if None in (left, right) else False)
    return False if False in (left, right) else (None if None in (left, right) else True)


def unescape(text):
    return re.sub(r"\\(.)", lambda m: {"n": "\n", "t": "\t", "r": "\r", "\\": "\\"}[m[1]], text)


def answer(line, graph):
    text, kind, _, binary_id, binary_kind, name, platform, test, default = (unescape(c) for c in line.split("\t"))
    try:
        f = Reader(text.encode(), kind, graph).whole()
    except Refused as fault:
        return "refused\t%s\t%d\t%d" % (fault.row[0], fault.row[1], fault.row[2] - fault.row[1])
    d = Reader(default.encode(), "default", graph).whole() if default else ("all",)
    shown = []
    for test_name in (test, None):
        q = {"test": test_name, "binary_id": binary_id, "kind": binary_kind, "name": name, "platform": platform}
        v = value(f, q, value(d, q, True, graph), graph)
        shown.append({True: "true", False: "false", None: "unknown"}[v])
    return "ok\t%s\t%s\t%s\t%s" % (shown[0], shown[1], reading(f), " ".join(leaves(f)))


def main():
    graph = None
    for line in sys.stdin.read().split("\n"):
        kind, _, row = line.partition("\t")
        if kind == "filter" and row.startswith("graph\t"):
            graph = json.loads(row[6:])
        elif kind == "filter":
            print(row + "\t" + answer(row, graph))


if __name__ == "__main__":
    main()
