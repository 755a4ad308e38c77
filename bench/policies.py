"""Policies that the scripts of this folder share."""

import os

IN_A_BUNDLE = 100
MOST_BYTES = 1048576
BODIES = """body perms m(x)
{
  mode => "$(x)";
}
body classes if_repaired(x)
{
  promise_repaired => { "$(x)" };
}
body agent control
{
  ifelapsed => "1440";
}
"""


def bundle(number, last=""):
    """100 promises: three of variables, 87 of files, ten of services, one of them by a class of an outcome; then the last ones."""
    lines = [f"bundle agent b{number}\n{{\n  vars:\n", f'    "root" string => "/data/{number}";\n',
             '    "mode" string => "644";\n', '    "names" slist => { "x", "y" };\n', "  files:\n"]
    for place in range(87):
        if place % 10 == 0:
            lines.append(f'    "$(root)/{place}-$(names)" content => "$(names)";\n')
        elif place % 10 == 1:
            lines.append(f'    "$(root)/{place}" create => "true", perms => m("$(mode)"), '
                         f'classes => if_repaired("c{number}");\n')
        else:
            lines.append(f'    "$(root)/{place}" content => "{place}";\n')
    lines.append("  services:\n")
    for place in range(9):
        lines.append(f'    "s{number}-{place}" service_policy => "start";\n')
    lines.append(f'    c{number}::\n    "s{number}-0" service_policy => "restart";\n{last}}}\n')
    return "".join(lines)


def write_policy(folder, number, last=""):
    """Writes the main file and its inputs, of so many promises and the last ones; answers the names of the files."""
    count, parts = number // IN_A_BUNDLE, [""]
    for which in range(count):
        text = bundle(which, last if which == count - 1 else "")
        if len(parts[-1]) + len(text) > MOST_BYTES:
            parts.append("")
        parts[-1] += text
    names = [f"{place}.cf" for place in range(len(parts))]
    for name, part in zip(names, parts):
        with open(os.path.join(folder, name), "w") as source:
            source.write(part)
    listed, sequence = ", ".join(f'"{n}"' for n in names), ", ".join(f'"b{n}"' for n in range(count))
    with open(os.path.join(folder, "main.cf"), "w") as source:
        source.write(f"body common control\n{{\n  inputs => {{ {listed} }};\n"
                     f"  bundlesequence => {{ {sequence} }};\n}}\n{BODIES}")
    return ["main.cf", *names]


def two_lists():
    """The vars promises of two lists of 64 items, whose joined texts are all different."""
    items = ", ".join(f'"{n:02}"' for n in range(64))
    return f'  vars:\n    "a" slist => {{ {items} }};\n    "b" slist => {{ {items} }};\n'


def chain(count, makes_files=False):
    """A policy of bundles of which each calls the next one, and makes a file before, where it is asked to."""
    files = 'files:"/chain/{0}"create=>"true";' if makes_files else ""
    calls = [f'bundle agent b{n}{{{files.format(n)}methods:"m"usebundle=>b{n + 1};}}\n' for n in range(count - 1)]
    last = f"bundle agent b{count - 1}{{{files.format(count - 1)}}}\n"
    return f'body common control{{bundlesequence=>{{"b0"}};}}\n{"".join(calls)}{last}'
