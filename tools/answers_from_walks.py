#!/usr/bin/env python3
"""Turns proofs of the older kit, which close a `tie`, into today's Invariants.antt and Answers.antt.

usage: answers_from_walks.py OLD NAMES CRATE [--open LOG] [--only FUNCTION]

OLD is a folder that has the older crates/CRATE/proofs/F/Proof.antt (after port.py), NAMES the names.json that
`rt check --generated DIR --old-names` writes in the crate. Invariants are written where there are none. With --open, LOG is what a check said, and each
function that it leaves open gets Answers.antt with those of its goals that the older proof answered. What it cannot turn is marked `-- by hand`.
"""
import glob
import json
import os
import re
import sys

WORD = r"[A-Za-z_₀-₉ωκ𝓛][\w'₀-₉⁺-]*"
PATH = re.compile(r"(?<![\w'.₀-₉-])(%s)((?:\.[\w'₀-₉⁺-]+)+)" % WORD)
TRIVIAL = re.compile(r"^\(?λ \w+( κs)?\. (search needs|omega arith|search rules)\)?$|^\(?λ _ _\. tt\)?$")


def split_args(text):
    """The arguments of an application, by parentheses."""
    out, depth, cur = [], 0, ""
    for ch in text:
        if ch in "([{":
            depth += 1
        if ch in ")]}":
            depth -= 1
        if ch.isspace() and depth == 0:
            if cur:
                out.append(cur)
            cur = ""
        else:
            cur += ch
    if cur:
        out.append(cur)
    return out


class Function:
    def __init__(self, key, data):
        self.data = data
        self.parent, self.new_place, self.steps, self.callee, self.inner = {}, {}, {}, {}, {}
        by_name = data["places_by_name"]
        for (place, parent, (old, new), callee, inner), name in zip(data["places"], by_name):
            self.parent[place], self.new_place[place] = parent, name
            if old:
                self.steps.setdefault(old, set()).add(new)
                self.callee[new] = callee
                self.inner.setdefault(new, []).extend(inner)
        self.arm_fields = {}
        for arm in data["arms"]:
            if arm:
                for field, step, path in arm[2]:
                    if not field.endswith("-own"):
                        self.arm_fields[(re.sub(r"[-_]", "", step), tuple(path))] = (arm[0], field)
        for loop, _ in data["loops"]:
            self.steps.setdefault(loop[0], set()).add(loop[1])
        self.own = []
        self.helpers = {}
        norm = {}
        for old in self.steps:
            norm.setdefault(re.sub(r"[-_]", "", old).lower(), old)
        self.norm = norm
        self.needs = dict(data["needs"])
        self.asked = {}
        for (old, new), (place, new_place) in zip(data["needs"], data["asked_at"]):
            self.asked[new] = place

    def translate(self, root, fields, place):
        befores = 0
        fields = list(fields)
        while fields and fields[0] == "before":
            befores += 1
            fields.pop(0)
        if not fields:
            return root + ".before" * befores
        if fields[0] == "args" and len(fields) > 1 and re.fullmatch(r"t\d+", fields[1]):
            k = int(fields[1][1:]) - 1
            if k < len(self.own):
                fields[1] = self.own[k]
        if fields[0] in ("args", "requires", "ranges", "well_formed"):
            return root + "." + ".".join(fields)
        for k in range(len(fields), 0, -1):
            hit = self.arm_fields.get((re.sub(r"[-_]", "", fields[0]), tuple(fields[1:k])))
            if hit:
                return ".".join([root, hit[0], hit[1]] + fields[k:])
        if fields[0] not in self.steps:
            plain = re.sub(r"[-_]", "", fields[0]).lower()
            for tried in (plain, re.sub(r"2$", "", plain)):
                if tried in self.norm:
                    fields[0] = self.norm[tried]
                    break
        if fields[0] in self.steps:
            news = self.steps[fields[0]]
            new = sorted(news)[0]
            rest = fields[1:]
            if rest and rest[0] == "new" and self.callee.get(new) in self.data["params"]:
                params = self.data["params"][self.callee[new]]
                i, r = 0, rest[1:]
                while r and r[0] == "1":
                    i += 1
                    r = r[1:]
                if r and r[0] == "0" and i < len(params):
                    rest = ["new", params[i]] + r[1:]
            if rest:
                for old, to in self.inner.get(new, []):
                    if rest[0] == old:
                        rest = [to] + rest[1:]
            if rest and rest[0] in ("taken", "left"):
                rest = [{"taken": "true", "left": "false"}[rest[0]]] + rest[1:]
            return ".".join([root, new if len(news) == 1 else "|".join(sorted(news))] + rest)
        return ".".join([root] + fields)


def parse(text):
    head, uses, defs = [], [], []
    lines = text.split("\n")
    i = 0
    while i < len(lines) and (lines[i].startswith("--") or not lines[i].strip()):
        if lines[i].strip():
            head.append(lines[i])
        i += 1
    comment = []
    while i < len(lines):
        l = lines[i]
        if l.startswith("use "):
            uses.append(l)
        elif l.startswith("--"):
            comment.append(l)
        elif l.strip():
            chunk = [l]
            while i + 1 < len(lines) and lines[i + 1].strip() and not lines[i + 1].startswith("--"):
                i += 1
                chunk.append(lines[i])
            defs.append((comment, chunk))
            comment = []
        i += 1
    return head, uses, defs


def chunk_parts(chunk):
    """Name, signature, unfolding lines, parameters, body."""
    text = "\n".join(chunk)
    m = re.match(r"(?:abbrev |pub |unfoldable )*([^\s:]+) :", text)
    name = m.group(1)
    j = 0
    sig = []
    while j < len(chunk) and not re.match(r"(unfolding .*|%s(?= |$))" % re.escape(name), chunk[j]) or j == 0:
        sig.append(chunk[j])
        j += 1
    unfolding = []
    while j < len(chunk) and chunk[j].startswith("unfolding "):
        unfolding.append(chunk[j])
        j += 1
    body = "\n".join(chunk[j:])
    m = re.match(re.escape(name) + r"([^=]*)=[ ]?", body)
    params = m.group(1).split() if m else []
    return name, "\n".join(sig), unfolding, params, body[m.end():] if m else body


def word_sub(text, word, to):
    return re.sub(r"(?<![\w'.₀-₉-])%s(?![\w'₀-₉-])" % re.escape(word), lambda m: to, text)


def is_before(path):
    return re.fullmatch(r"%s(\.before)+" % WORD, path) is not None


def inline(body, projections):
    """Puts lets that only go back, and helpers that only go back, in place."""
    changed = True
    while changed:
        changed = False
        for name, (param, path) in projections.items():
            m = re.search(r"\(%s (%s(?:\.[\w'₀-₉-]+)*)\)" % (re.escape(name), WORD), body)
            if m:
                new = word_sub(path, param, m.group(1))
                body = body[: m.start()] + new + body[m.end():]
                changed = True
            m = re.search(r"= %s (%s(?:\.[\w'₀-₉-]+)*) in" % (re.escape(name), WORD), body)
            if m:
                body = body[: m.start()] + "= " + word_sub(path, param, m.group(1)) + " in" + body[m.end():]
                changed = True
        m = re.search(r"let (%s) = (%s(?:\.before)+|%s) in\s*" % (WORD, WORD, WORD), body)
        if m:
            rest = body[m.end():]
            rest = re.sub(r"(?<![\w'.₀-₉-])%s(?![\w'₀-₉-])" % re.escape(m.group(1)), lambda _: m.group(2), rest)
            body = body[: m.start()] + rest
            changed = True
    return body


def paths(body, fn, roots):
    def one(m):
        root, fields = m.group(1), m.group(2)[1:].split(".")
        if root not in roots:
            return m.group(0)
        return fn.translate(root, fields, roots[root])
    body = re.sub(r"\.inv(?![\w'-])", ".invariant", re.sub(r"\.pre(?![\w'-])", ".requires", body))
    body = re.sub(r"(?<=args)\.t(\d+)(?![\w'-])", lambda m: "." + fn.own[int(m.group(1)) - 1] if int(m.group(1)) <= len(fn.own) else m.group(0), body)
    return calls(PATH.sub(one, body), fn, roots)


def own_params(crate, path):
    name = path.split("/")[-1]
    for p in glob.glob("crates/%s/src/**/*.rt" % crate, recursive=True):
        m = re.search(r"fn %s(?:<[^>]*>)?\(([^)]*)\)" % re.escape(name), open(p, encoding="utf-8").read())
        if m:
            return [re.match(r"\s*(?:mut )?&?(?:mut )?(\w+)", x).group(1) for x in m.group(1).split(",") if re.match(r"\s*(?:mut )?&?(?:mut )?\w", x)]
    return []


def chained(fn, place, target):
    """How many places back from one to another, by names of today or of then."""
    plain = lambda n: re.sub(r"[-_]", "", n)
    n = 0
    while place is not None:
        if plain(place) == (plain(target) if plain(target) in map(plain, fn.parent) else re.sub(r"2$", "", plain(target))):
            return n
        place = fn.parent.get(place)
        n += 1
    return None


def calls(body, fn, roots):
    """Gives each helper that stands at a place its own place."""
    for h, target in fn.helpers.items():
        def one(m):
            root = m.group(2)
            if root not in roots or roots[root] is None:
                return m.group(0)
            n = chained(fn, roots[root], target)
            return m.group(0) if n is None else m.group(1) + root + ".before" * n
        body = re.sub(r"(?<![\w'.₀-₉-])(%s )(%s)((?:\.before)*)(?![\w'.₀-₉-])" % (re.escape(h), WORD), one, body)
    return body


def place_in(sig, fn):
    places = set()

    def one(m):
        old = m.group(1)
        new = fn.new_place.get(old)
        if new is None:
            plain = re.sub(r"[-_]", "", old)
            found = {re.sub(r"[-_]", "", o): n for o, n in fn.new_place.items()}
            new = found.get(plain) or found.get(re.sub(r"2$", "", plain)) or old
        places.add(new)
        return new
    loops = "|".join(x for l, _ in fn.data["loops"] for x in ("invariant-" + re.escape(l[0]), "decreases-" + re.escape(l[0]), "invariant-" + re.escape(l[1])))
    if loops:
        sig = re.sub(r"(tie\.[\w'-]+)((?: (?:%s))+)" % loops, r"\1", sig)
    return re.sub(r"tie\.([A-Z][\w'-]*)", one, sig), places


def invariants(fn, defs, uses, head, crate, path):
    out = []
    names = {}
    for loop, variables in fn.data["loops"]:
        names["invariant-" + loop[0]] = ("invariant-" + loop[1], variables)
        names["decreases-" + loop[0]] = ("decreases-" + loop[1], variables)
    by = fn.data
    changed = by["changed"]
    for comment, chunk in defs:
        name, sig, unfolding, params, body = chunk_parts(chunk)
        key = name
        if key not in names:
            continue
        new, variables = names[key]
        i = [("invariant-" + l[0]) for l, _ in by["loops"]].index("invariant-" + name.split("-", 1)[1])
        flags = changed[i] if i < len(changed) else [False] * len(variables)
        expected = len(variables) + sum(flags)
        text = body
        if len(params) == expected:
            moved = [v for v, f in zip(variables, flags) if f]
            for p, v, f in zip(params, variables, flags):
                text = word_sub(text, p, "l." + ("initial." if f else "") + v)
            for p, v in zip(params[len(variables):], moved):
                text = word_sub(text, p, "l." + v)
            mark = ""
        else:
            mark = "-- by hand: " + " ".join(params) + " for " + " ".join(variables) + "\n"
        out.append("%sabbrev pub %s : goal.%s\n%s l = %s" % (mark, new, new, new, text))
    if not out:
        return None
    body = "\n\n".join(out)
    kept = keep_uses(uses, body)
    return "\n".join(head + kept + ["use Rattle.%s.proofs.%s.Given as goal" % (crate, path.replace("/", ".")), "", body, ""])


def keep_uses(uses, body):
    kept = []
    words = set(re.findall(r"[^\s(){}\[\],.;]+", body)) | set(re.findall(r"[^\s(){}\[\],;]+", body))
    ops = body
    for u in uses:
        if ".Statement." in u or u.endswith(" as tie") or ".Tie" in u:
            continue
        m = re.match(r"(use [^{]*\{)(.*)\}$", u)
        if not m:
            kept.append(u)
            continue
        items = []
        for it in m.group(2).split(", "):
            bare = it.split(" as ")[-1]
            core = bare.strip("◌")
            if "◌" in bare:
                sym = core.split("◌")
                if all(s in ops for s in sym if s):
                    items.append(it)
            elif bare in words:
                items.append(it)
        if items:
            kept.append(m.group(1) + ", ".join(items) + "}")
    return kept


def with_lets(body, root, helpers, order, projections, fn):
    """Puts each helper at a place into the goal itself, as a let: facts are flat there, so that its words hold as they stand."""
    need, queue, opened = [], [body], []
    while queue:
        text = queue.pop()
        for h in order:
            if h not in need and re.search(r"(?<![\w'.₀-₉-])%s(?![\w'₀-₉-])" % re.escape(h), text):
                need.append(h)
                queue.append(helpers[h][1] + helpers[h][4])
    lets = []
    for h in [x for x in order if x in need]:
        comment, sig, unfolding, params, text = helpers[h]
        m = re.match(r"[^:]* : (?:\((%s) : )?tie\.[A-Z][\w'-]*\)?[^→]*→ (.*)$" % WORD, sig, re.S)
        if not m or len(params) != 1:
            return None
        opened.extend(x for u in unfolding for x in u.split()[1:])
        ty = inline(m.group(2).strip(), projections)
        text = inline(text, projections)
        ty = word_sub(ty, m.group(1) or params[0], root)
        text = word_sub(text, params[0], root)
        ty, text = (paths(x, fn, {root: None}) for x in (ty, text))
        lets.append((h, ty, text.strip()))

    def called(x):
        for h in need:
            x = re.sub(r"\(%s %s(?:\.before)*\)" % (re.escape(h), re.escape(root)), h, x)
            x = re.sub(r"(?<![\w'.₀-₉-])%s %s(?:\.before)*(?![\w'.₀-₉-])" % (re.escape(h), re.escape(root)), h, x)
        return x
    head = "".join("\n    let %s : (%s) =\n    %s in" % (h, re.sub(r"\s*\n\s*", " ", called(t)), called(b)) for h, t, b in lets)
    body = called(body)
    return head + ("\n    " if lets and not body.startswith("\n") else "") + body, opened


def answers(fn, defs, uses, head, crate, path, wanted):
    spec = "\n".join(defs[-1][1])
    m = re.search(r"tie\.close \(tie\.spec (.*)\)\s*$", spec, re.S)
    args = split_args(m.group(1)) if m else []
    skip = set()
    for loop, _ in fn.data["loops"]:
        skip |= {"invariant-" + loop[0], "decreases-" + loop[0]}
    args = [a for a in args if a not in skip]
    helpers, goals, projections = {}, {}, {}
    order = []
    for comment, chunk in defs[:-1]:
        name, sig, unfolding, params, body = chunk_parts(chunk)
        if name in skip:
            continue
        g = re.search(r"tie\.Need-([\w'-]+)", sig)
        if g:
            goals[name] = (comment, unfolding, params, body, g.group(1))
        elif len(params) == 1 and re.fullmatch(r"\s*(%s)(\.before)+\s*" % WORD, body.strip()):
            projections[name] = (params[0], body.strip())
        elif len(params) == 1 and re.fullmatch(r"let (%s) = [\w.-]+ in (%s)(\.before)+" % (WORD, WORD), body.strip()):
            projections[name] = (params[0], inline(body.strip(), projections))
        else:
            helpers[name] = (comment, sig, unfolding, params, body)
            order.append(name)
    for n in list(projections):
        p, b = projections[n]
        projections[n] = (p, inline(b, {k: v for k, v in projections.items() if k != n}))
    for h in order:
        m = re.match(r"[^:]* : (?:\(%s : )?tie\.([A-Z][\w'-]*)" % WORD, helpers[h][1])
        if m:
            fn.helpers[h] = m.group(1)
    by_new = {}
    plain = lambda n: re.sub(r"[-_]", "", n).lower()
    by_plain = {plain(o): n for o, n in fn.data["needs"]}
    taken = set()
    for name, g in goals.items():
        if plain(g[4]) in by_plain:
            taken.add(by_plain[plain(g[4])])
            by_new[by_plain[plain(g[4])]] = g
    rest = [a for a in args if a not in goals or plain(goals[a][4]) not in by_plain]
    free = [n for n in fn.data["needs"] if n[1] not in taken]
    if len(rest) == len(free):
        args, pairs, mark_needed = rest, free, False
    else:
        pairs = fn.data["needs"]
    for a, (old, new) in zip(args, pairs):
        if new in taken:
            continue
        if a in goals:
            by_new[new] = goals[a]
        elif not TRIVIAL.match(a):
            l = re.match(r"^\(λ (\w+)( κs)?\. (.*)\)$", a, re.S)
            by_new[new] = ([], [], [l.group(1)], l.group(3), old) if l else ([], [], ["c"], a, old)
    mark = "" if len(args) in (len(fn.data["needs"]), len(pairs)) else "-- by hand: %d answers for %d goals\n" % (len(args), len(fn.data["needs"]))
    if mark:
        for name, (comment, unfolding, params, body, old) in goals.items():
            norm = {re.sub(r"[-_]", "", o): n for o, n in fn.data["needs"]}
            n = norm.get(re.sub(r"[-_]", "", old))
            if n:
                by_new[n] = (comment, unfolding, params, body, old)
    all_wanted = wanted is None
    wanted = [n for _, n in fn.data["needs"]] if wanted is None else wanted
    wanted = [n for _, n in fn.data["needs"] if n in wanted] + [n for n in wanted if n not in [m for _, m in fn.data["needs"]]]
    texts, places, placed, standing = [], set(), set(), []
    for new in wanted:
        if new not in by_new:
            if all_wanted:
                continue
            texts.append("pub %s : goal.%s\n%s c = ?" % (new, new, new))
            continue
        comment, unfolding, params, body, old = by_new[new]
        root = params[0] if params else "c"
        body = paths(inline(body, projections), fn, {root: fn.asked.get(new)})
        if any(fn.data["arms"]) or "--inline" in sys.argv:
            put_in = with_lets(body, root, helpers, order, projections, fn)
            if put_in is not None:
                put_in, opened = put_in
                have = [x for u in unfolding for x in u.split()[1:]]
                both = have + [x for x in dict.fromkeys(opened) if x not in have]
                unfolding = ["unfolding " + " ".join(both)] if both else []
            if put_in is not None and put_in != body:
                texts_in = set(re.findall(r"let (%s) : \(" % WORD, put_in)) & set(order)
                placed |= texts_in
            body = body if put_in is None else put_in
            standing.append(body if put_in is None else "")
        else:
            standing.append(body)
        body = body.replace("search needs", "search rules")
        if "tie." in body:
            body, pl = place_in(body, fn)
            places |= pl
        texts.append("\n".join(comment + ["pub %s : goal.%s" % (new, new)] + unfolding + ["%s %s =%s" % (new, root, body if body.startswith("\n") else " " + body)]))
    done = set()
    helper_texts = {}
    while True:
        whole = "\n".join(standing + list(helper_texts.values()))
        more = [h for h in order if h not in done and re.search(r"(?<![\w'.-])%s(?![\w'-])" % re.escape(h), whole)]
        if not more:
            break
        for h in more:
            comment, sig, unfolding, params, body = helpers[h]
            roots = {}
            for m in re.finditer(r"\((%s) : tie\.([A-Z][\w'-]*)" % WORD, sig):
                roots[m.group(1)] = m.group(2)
            mm = re.match(r".*: tie\.([A-Z][\w'-]*)", sig)
            if params:
                roots.setdefault(params[0], mm.group(1) if mm else None)
            sig2, pl = place_in(inline(sig, projections), fn)
            places |= pl
            sig2 = paths(sig2, fn, roots)
            helper_texts[h] = "\n".join(comment + [sig2] + unfolding + ["%s %s =%s" % (h, " ".join(params), (lambda b: b if b.startswith("\n") else " " + b)(paths(inline(body, projections), fn, roots)))])
            done.add(h)
    body = "\n\n".join([helper_texts[h] for h in order if h in helper_texts] + texts)
    kept = keep_uses(uses, body)
    if "search rules" in body:
        kit = [u for u in kept if "ground.proofs.Kit.{" in u]
        if kit:
            kept[kept.index(kit[0])] = kit[0][:-1] + ", rules}"
        else:
            kept.insert(0, "use Rattle.std.proofs.Common.{rules}")
    goal = "Rattle.%s.proofs.%s.Goals" % (crate, path.replace("/", "."))
    kept.append("use %s as goal" % goal)
    arms = sorted(set(re.findall(r"\b((?:then|else|left|in|not|after|came)-[\w-]+) w ↦", body)))
    names = sorted(places) + arms
    if names:
        kept.append("use %s.{%s}" % (goal, ", ".join(names)))
    return mark + "\n".join(head + kept + ["", body, ""])


def open_goals(log):
    found = {}
    for l in open(log, encoding="utf-8"):
        m = re.match(r"fn (\S+): no proof: expected answers in \./proofs/(\S+)/Answers\.antt; `search` did not prove (.*)", l)
        if m:
            found[m.group(2)] = re.findall(r"`([^`]+)`", m.group(3).split("; it calls")[0])
    return found


def main(argv):
    old, names, crate = argv[:3]
    log = argv[argv.index("--open") + 1] if "--open" in argv else None
    only = argv[argv.index("--only") + 1] if "--only" in argv else None
    data = json.load(open(names, encoding="utf-8"))
    wanted = open_goals(log) if log else None
    base = os.path.join(old, "crates", crate, "proofs")
    for p in sorted(glob.glob(base + "/**/Proof.antt", recursive=True)):
        path = os.path.relpath(os.path.dirname(p), base)
        if only and path != only:
            continue
        text = open(p, encoding="utf-8").read()
        if "tie.spec" not in text:
            continue
        key = "Rattle-%s-proofs.%s.Lts" % (crate, path.replace("/", "."))
        if key not in data:
            print("left: no names for " + key)
            continue
        fn = Function(key, data[key])
        fn.own = own_params(crate, path)
        head, uses, defs = parse(text)
        to = os.path.join("crates", crate, "proofs", path)
        inv = invariants(fn, defs, uses, head, crate, path)
        if inv and not os.path.exists(to + "/Invariants.antt"):
            os.makedirs(to, exist_ok=True)
            open(to + "/Invariants.antt", "w", encoding="utf-8").write(inv)
            print("wrote", to + "/Invariants.antt")
        if wanted is not None and path in wanted or only and not log:
            if not os.path.exists(to + "/Answers.antt"):
                os.makedirs(to, exist_ok=True)
                open(to + "/Answers.antt", "w", encoding="utf-8").write(answers(fn, defs, uses, head, crate, path, wanted[path] if wanted else None))
                print("wrote", to + "/Answers.antt", len(wanted[path]) if wanted else "")
            else:
                there = open(to + "/Answers.antt", encoding="utf-8").read()
                had = re.findall(r"(?m)^pub (\S+) : goal\.", there)
                order = [n for _, n in fn.data["needs"]]
                if there == answers(fn, defs, uses, head, crate, path, [n for n in order if n in had]):
                    both = [n for n in order if n in had or n in (wanted[path] if wanted else order)]
                    open(to + "/Answers.antt", "w", encoding="utf-8").write(answers(fn, defs, uses, head, crate, path, both))
                    print("wrote again", to + "/Answers.antt", len(both))
                else:
                    print("left: there is", to + "/Answers.antt", wanted[path] if wanted else "")


if __name__ == "__main__":
    main(sys.argv[1:])
