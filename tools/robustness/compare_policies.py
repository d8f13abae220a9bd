#!/usr/bin/env python3
"""Compares ways to find the policies of a path on random chains: the valid policy tree of RFC 5280 6.1, built as the RFC's text says, the leaves of that
tree, and one set of policies a certificate with the policies of the one above that lead to them; and, with --library, what the C library answers, by
`x509_path_validate_views_under_key`.

    compare_policies.py [--chains N] [--seed S] [--library libx509.so]

Each chain is of 1 to 7 certificates over 5 policies and any-policy, some of them self-issued, with mappings, policy constraints and inhibit any-policy.
"""
import argparse
import pathlib
import random
import sys

sys.path.insert(0, str(pathlib.Path(__file__).resolve().parents[1]))
sys.dont_write_bytecode = True
from common import paths
from common.der import element, integer, object_identifier, sequence

ANY = "any"
NAMES = ["p", "q", "r", "s", "t"]


class Certificate:
    def __init__(self, policies=None, mappings=(), require=None, inhibit_mapping=None, inhibit_any=None, self_issued=False):
        self.policies = policies
        self.mappings = list(mappings)
        self.require = require
        self.inhibit_mapping = inhibit_mapping
        self.inhibit_any = inhibit_any
        self.self_issued = self_issued

    def __repr__(self):
        return f"Certificate({self.policies}, {self.mappings}, {self.require}, {self.inhibit_mapping}, {self.inhibit_any}, {self.self_issued})"


class Settings:
    def __init__(self, user=(ANY,), explicit=False, inhibit_mapping=False, inhibit_any=False):
        self.user = set(user)
        self.explicit = explicit
        self.inhibit_mapping = inhibit_mapping
        self.inhibit_any = inhibit_any

    def __repr__(self):
        return f"Settings({sorted(self.user)}, {self.explicit}, {self.inhibit_mapping}, {self.inhibit_any})"


class Refused(Exception):
    pass


# ---- the tree of the RFC


class Node:
    def __init__(self, parent, valid, expected):
        self.parent = parent
        self.valid = valid
        self.expected = set(expected)
        self.children = []

    def add(self, valid, expected):
        self.children.append(Node(self, valid, expected))


def level(tree, depth):
    nodes = [tree] if tree else []
    for _ in range(depth):
        nodes = [child for node in nodes for child in node.children]
    return nodes


def prune(tree, depth):
    """Deletes nodes above that depth without children, until none is left (6.1.3 (d) (3))."""
    while True:
        bare = [node for d in range(depth) for node in level(tree, d) if not node.children]
        if not bare:
            return tree
        for node in bare:
            if node.parent is None:
                return None
            node.parent.children.remove(node)


def delete(node):
    node.parent.children.remove(node)


def by_tree(settings, path):
    n = len(path)
    tree = Node(None, ANY, [ANY])  # 6.1.2 (a)
    explicit = 0 if settings.explicit else n + 1  # (d)
    inhibit_any = 0 if settings.inhibit_any else n + 1  # (e)
    mapping = 0 if settings.inhibit_mapping else n + 1  # (f)
    for i, c in enumerate(path, 1):
        if c.policies is not None and len(set(c.policies)) != len(c.policies):  # 4.2.1.4
            raise Refused(i, "repeated")
        if c.policies is not None and tree:  # 6.1.3 (d)
            above = level(tree, i - 1)
            for p in c.policies:  # (1)
                if p == ANY:
                    continue
                expecting = [node for node in above if p in node.expected]
                for node in expecting:  # (i)
                    node.add(p, [p])
                if not expecting:  # (ii)
                    for node in above:
                        if node.valid == ANY:
                            node.add(p, [p])
            if ANY in c.policies and (inhibit_any > 0 or (i < n and c.self_issued)):  # (2)
                for node in above:
                    for p in node.expected:
                        if p not in [child.valid for child in node.children]:
                            node.add(p, [p])
            tree = prune(tree, i)  # (3)
        if c.policies is None:  # (e)
            tree = None
        if not (explicit > 0 or tree):  # (f)
            raise Refused(i, "none")
        if i == n:
            break
        if any(ANY in pair for pair in c.mappings):  # 6.1.4 (a)
            raise Refused(i, "any mapped")
        for id_p in sorted({pair[0] for pair in c.mappings}):  # (b)
            if mapping > 0:  # (1)
                to = {pair[1] for pair in c.mappings if pair[0] == id_p}
                nodes = [node for node in level(tree, i) if node.valid == id_p]
                for node in nodes:
                    node.expected = set(to)
                if not nodes and any(node.valid == ANY for node in level(tree, i)):
                    (parent,) = [node for node in level(tree, i - 1) if node.valid == ANY]
                    parent.add(id_p, to)
            else:  # (2)
                for node in level(tree, i):
                    if node.valid == id_p:
                        delete(node)
                tree = prune(tree, i)
        if not c.self_issued:  # (h)
            explicit, mapping, inhibit_any = max(explicit - 1, 0), max(mapping - 1, 0), max(inhibit_any - 1, 0)
        if c.require is not None:  # (i) (1)
            explicit = min(explicit, c.require)
        if c.inhibit_mapping is not None:  # (i) (2)
            mapping = min(mapping, c.inhibit_mapping)
        if c.inhibit_any is not None:  # (j)
            inhibit_any = min(inhibit_any, c.inhibit_any)
    explicit = max(explicit - 1, 0)  # 6.1.5 (a)
    if path[-1].require == 0:  # (b)
        explicit = 0
    if tree and ANY not in settings.user:  # (g) (iii)
        node_set = [node for d in range(1, n + 1) for node in level(tree, d) if node.parent.valid == ANY]  # 1
        for node in node_set:  # 2
            if node.valid not in settings.user and node.valid != ANY:
                delete(node)
        for leaf in level(tree, n):  # 3
            if leaf.valid == ANY:
                for p in settings.user - {node.valid for node in node_set}:
                    leaf.parent.add(p, [p])
                delete(leaf)
        tree = prune(tree, n)  # 4
    if not (explicit > 0 or tree):
        raise Refused(n, "none")
    under_any = {node.valid for d in range(1, n + 1) for node in level(tree, d) if node.parent.valid == ANY and (node.valid != ANY or d == n)}
    return under_any


# ---- its leaves: the first policy under any-policy on the way to a leaf, the leaf's policy, what it expects


def by_leaves(settings, path):
    n = len(path)
    leaves = {(ANY, ANY, frozenset([ANY]))}
    explicit, inhibit_any, mapping = (0 if off else n + 1 for off in (settings.explicit, settings.inhibit_any, settings.inhibit_mapping))

    def below(first, p):
        return p if first == ANY else first

    for i, c in enumerate(path, 1):
        if c.policies is not None and len(set(c.policies)) != len(c.policies):
            raise Refused(i, "repeated")
        if c.policies is None:
            leaves = set()
        expected = {p for leaf in leaves for p in leaf[2]}
        made = set()
        for first, valid, expects in leaves:
            children = {p for p in c.policies if p != ANY and (p in expects or (p not in expected and valid == ANY))}
            if ANY in c.policies and (inhibit_any > 0 or (i < n and c.self_issued)):
                children |= expects
            made |= {(below(first, p), p, frozenset([p])) for p in children}
        leaves = made
        if not (explicit > 0 or leaves):
            raise Refused(i, "none")
        if i == n:
            break
        if any(ANY in pair for pair in c.mappings):
            raise Refused(i, "any mapped")
        for id_p in [pair[0] for pair in c.mappings]:
            to = frozenset(pair[1] for pair in c.mappings if pair[0] == id_p)
            if mapping == 0:
                leaves = {leaf for leaf in leaves if leaf[1] != id_p}
            elif any(leaf[1] == id_p for leaf in leaves):
                leaves = {(first, valid, to if valid == id_p else expects) for first, valid, expects in leaves}
            else:
                leaves |= {(below(first, id_p), id_p, to) for first, valid, expects in leaves if valid == ANY}
        if not c.self_issued:
            explicit, mapping, inhibit_any = max(explicit - 1, 0), max(mapping - 1, 0), max(inhibit_any - 1, 0)
        explicit = explicit if c.require is None else min(explicit, c.require)
        mapping = mapping if c.inhibit_mapping is None else min(mapping, c.inhibit_mapping)
        inhibit_any = inhibit_any if c.inhibit_any is None else min(inhibit_any, c.inhibit_any)
    explicit = 0 if path[-1].require == 0 else max(explicit - 1, 0)
    firsts = {leaf[0] for leaf in leaves}
    policies = firsts if ANY in settings.user else settings.user if ANY in firsts else firsts & settings.user
    if not (explicit > 0 or policies):
        raise Refused(n, "none")
    return policies


# ---- one map a certificate, from a policy to what it expects and the policies above that lead to it


def by_levels(settings, path):
    n = len(path)
    levels = [{ANY: (frozenset([ANY]), frozenset())}]
    explicit, inhibit_any, mapping = (0 if off else n + 1 for off in (settings.explicit, settings.inhibit_any, settings.inhibit_mapping))
    for i, c in enumerate(path, 1):
        if c.policies is not None and len(set(c.policies)) != len(c.policies):
            raise Refused(i, "repeated")
        above = levels[-1]
        expecting = {}
        for p, (expects, _) in above.items():
            for q in expects:
                expecting.setdefault(q, set()).add(p)
        made = {}
        for p in c.policies or ():
            if p != ANY and p in expecting:
                made[p] = (frozenset([p]), frozenset(expecting[p]))
            elif p != ANY and ANY in above:
                made[p] = (frozenset([p]), frozenset([ANY]))
        if ANY in (c.policies or ()) and (inhibit_any > 0 or (i < n and c.self_issued)):
            for p in expecting:
                made.setdefault(p, (frozenset([p]), frozenset(expecting[p])))
        levels.append(made)
        if not (explicit > 0 or made):
            raise Refused(i, "none")
        if i == n:
            break
        if any(ANY in pair for pair in c.mappings):
            raise Refused(i, "any mapped")
        for id_p in {pair[0] for pair in c.mappings}:
            to = frozenset(pair[1] for pair in c.mappings if pair[0] == id_p)
            if mapping == 0:
                made.pop(id_p, None)
            elif id_p in made:
                made[id_p] = (to, made[id_p][1])
            elif ANY in made:
                made[id_p] = (to, made[ANY][1])
        if not c.self_issued:
            explicit, mapping, inhibit_any = max(explicit - 1, 0), max(mapping - 1, 0), max(inhibit_any - 1, 0)
        explicit = explicit if c.require is None else min(explicit, c.require)
        mapping = mapping if c.inhibit_mapping is None else min(mapping, c.inhibit_mapping)
        inhibit_any = inhibit_any if c.inhibit_any is None else min(inhibit_any, c.inhibit_any)
    explicit = 0 if path[-1].require == 0 else max(explicit - 1, 0)
    firsts = {ANY} if ANY in levels[-1] else set()
    alive = set(levels[-1])
    for made in reversed(levels[1:]):
        firsts |= {p for p in alive if p != ANY and ANY in made[p][1]}
        alive = {q for p in alive for q in made[p][1]}
    policies = firsts if ANY in settings.user else settings.user if ANY in firsts else firsts & settings.user
    if not (explicit > 0 or policies):
        raise Refused(n, "none")
    return policies


# ---- the C library

# any-policy (RFC 5280 4.2.1.4), and others of as many octets
IDENTIFIERS = {policy: object_identifier(2, 5, 29, 32, number) for number, policy in enumerate([ANY, *NAMES])}
LISTED = {policy: sequence(identifier) for policy, identifier in IDENTIFIERS.items()}
SIZE = len(LISTED[ANY])
# the reasons of x509.h: X509_PATH_REPEATED_POLICY, X509_PATH_POLICY, X509_PATH_POLICY_MAPPING
REASONS = {14: "repeated", 15: "none", 16: "any mapped"}


def limited(number, value):
    """An INTEGER under [number], if there is one."""
    return [] if value is None else [element(0x80 + number, integer(value)[2:])]


def encoded(path):
    """The certificates."""
    found, above = [], 0
    for place, it in enumerate(path, 1):
        extensions = [*paths.CA] if place < len(path) else []
        if it.policies is not None:
            extensions.append(paths.extension(32, sequence(*(LISTED[policy] for policy in it.policies))))
        if it.mappings:
            extensions.append(paths.extension(33, sequence(*(sequence(IDENTIFIERS[policy], IDENTIFIERS[to]) for policy, to in it.mappings))))
        if it.require is not None or it.inhibit_mapping is not None:
            extensions.append(paths.extension(36, sequence(*limited(0, it.require), *limited(1, it.inhibit_mapping))))
        if it.inhibit_any is not None:
            extensions.append(paths.extension(54, integer(it.inhibit_any)))
        subject = above if it.self_issued else above + 1
        found.append(paths.certificate(above, subject, *extensions))
        above = subject
    return found


def by_library(library):
    def way(settings, path):
        accepted = b"" if settings.user == {ANY} else sequence(*(LISTED[policy] for policy in sorted(settings.user)))
        call, answer = library.asked(encoded(path), settings.explicit + 2 * settings.inhibit_mapping + 4 * settings.inhibit_any, accepted)
        status = call()
        if status == paths.FAULT:
            raise Refused(answer.place + 1, REASONS.get(answer.reason, answer.reason))
        if status != paths.OK:
            raise Refused(0, f"status {status}")
        found = library.policies(answer)
        # each has as many octets, so the list is cut without being read
        header = len(found) - len(found) // SIZE * SIZE
        said = [found[at : at + SIZE] for at in range(header, len(found), SIZE)]
        policies = [policy for policy in LISTED if LISTED[policy] in said]
        if found != sequence(*said) or len(policies) != len(said):
            raise Refused(0, found.hex())
        return policies

    return way


# ---- random chains


def random_chain(rng):
    names = NAMES

    def some(of, most):
        return rng.sample(of, rng.randint(0, min(most, len(of))))

    def maybe(share, most):
        return rng.randint(0, most) if rng.random() < share else None

    path = []
    for _ in range(rng.randint(1, 7)):
        policies = None if rng.random() < 0.05 else some(names, 3) + ([ANY] if rng.random() < 0.5 else [])
        if policies:
            rng.shuffle(policies)
            if rng.random() < 0.01:
                policies.append(policies[0])
        mappings = [(rng.choice(names), rng.choice(names)) for _ in range(rng.choice([0, 0, 1, 2, 3, 5]))]
        if rng.random() < 0.01:
            mappings.append(rng.choice([("p", ANY), (ANY, "q")]))
        path.append(Certificate(policies, mappings, maybe(0.15, 3), maybe(0.15, 3), maybe(0.15, 3), rng.random() < 0.2))
    user = [ANY] if rng.random() < 0.4 else some(names, 4) + ([ANY] if rng.random() < 0.05 else [])
    return Settings(user, rng.random() < 0.3, rng.random() < 0.1, rng.random() < 0.1), path


def answer(way, settings, path):
    try:
        return "valid", sorted(way(settings, path))
    except Refused as why:
        return ("refused", *why.args)


def main():
    arguments = argparse.ArgumentParser(description=__doc__.split("\n\n")[0])
    arguments.add_argument("--chains", type=int, default=20000)
    arguments.add_argument("--seed", type=int, default=1)
    arguments.add_argument("--library", type=pathlib.Path)
    given = arguments.parse_args()
    ways = [by_leaves, by_levels, *([by_library(paths.Library(given.library))] if given.library else [])]
    rng = random.Random(given.seed)
    seen = {}
    for _ in range(given.chains):
        settings, path = random_chain(rng)
        tree = answer(by_tree, settings, path)
        for way in ways:
            other = answer(way, settings, path)
            if other != tree:
                print(f"{way.__name__}: {other}, the tree: {tree}\n  {settings}\n  {path}")
                return 1
        kind = tree[0] if tree[0] == "valid" else tree[2]
        kind += " with policies" if tree[0] == "valid" and tree[1] else ""
        seen[kind] = seen.get(kind, 0) + 1
    print(f"{given.chains} chains, alike:", ", ".join(f"{count} {kind}" for kind, count in sorted(seen.items())))
    return 0


if __name__ == "__main__":
    sys.exit(main())
