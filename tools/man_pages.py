"""Manual pages: one of each program, one of each verb, and one of the catalog."""
import re

from help_texts import common, examples_of
from mdoc import block_lines, blocks_lines, literal, rows_of, section, table, tagged, text_lines

def page(name, number, about, lines):
    # (write-reference puts the date there)
    return "\n".join([".Dd DATE", f".Dt {name.upper()} {number}", ".Os", ".Sh NAME", f".Nm {name}", f".Nd {about}", *lines]) + "\n"


def lower(text):
    return text[:1].lower() + text[1:]


def alone(text):
    """A text without what points to other places of its document."""
    return re.sub(r", (see below|by the rule above)", "", text)


def synopsis(verb):
    yield f".Cm {verb.name}"
    required = verb.required()
    for option in verb.options:
        flag = f"Fl {option.name[1:]}" + (f" Ar {option.value}" if option.value else "")
        yield f".{flag}" if option.name in required else f".Op {flag}"
    for word in verb.words() or [f"<{it}>" for it in re.sub(r"\[[^\]]*\]", "", verb.usage).split()[1:]]:
        name, dots = word.strip("<>[].").rstrip(">"), " ..." if word.rstrip(">").endswith("...") else ""
        yield f".Op Ar {name}{dots}" if word.startswith("[") else f".Ar {name}{dots}"


def word_pairs(arguments, options):
    """The tags and the texts of arguments and options, the general ones last."""
    for name, text in arguments:
        yield f"Ar {name.strip('<>[].').rstrip('>]')}", text
    for option in options:
        short = f"Fl {option.short[1:]} , " if option.short else ""
        yield f"{short}Fl {option.name[1:]}" + (f" Ar {option.value}" if option.value else ""), option.text


def examples(found):
    """Each example behind its sentence."""
    for at, (command, text) in enumerate(found):
        yield from ([".Pp"] if at else [])
        yield from (*text_lines(text), *literal([f"$ {command}"]))


def see_also(*names):
    return [".Sh SEE ALSO", *(f"\\fB{escaped_name}\\fR({number})" + ("," if at + 1 < len(names) else "")
                              for at, (escaped_name, number) in enumerate(names))]


def verb_page(verb, noted):
    lines = [".Sh SYNOPSIS", ".Nm pinepolo", *synopsis(verb), ".Sh DESCRIPTION", *blocks_lines([*verb.prose, *noted[verb.name]])]
    lines += [".Pp", "The arguments and options:", *tagged(word_pairs(verb.arguments, [*verb.options, *verb.general]))]
    lines += [".Sh EXIT STATUS", *tagged(verb.statuses)]
    lines += [".Sh EXAMPLES", *examples(examples_of(noted, verb.examples))]
    lines += see_also(("pinepolo", 1), ("pinepolo\\-catalog", 5))
    return page(f"pinepolo-{verb.name}", 1, lower(verb.about), lines)


def pinepolo_page(top, verbs, noted, docs):
    words, options = common(verbs, "arguments"), common(verbs, "options")
    lines = [".Sh SYNOPSIS", ".Nm", ".Ar verb", ".Op Ar option ...", ".Op Ar argument ...", ".Nm", ".Fl -help", ".Nm", ".Fl -version"]
    lines += [".Sh DESCRIPTION", *blocks_lines(noted["pinepolo"]), ".Pp", "The verbs, each with a page of its own:"]
    lines += tagged((f"\\fBpinepolo\\-{it.name}\\fR(1)", it.about) for it in verbs)
    lines += [".Pp", "Arguments and options of several verbs:", *tagged(word_pairs(words, options))]
    lines += [".Pp", "Options of the program itself:", *tagged(word_pairs([], top.general))]
    lines += [".Sh ENVIRONMENT", *blocks_lines(noted["Environment"])]
    lines += [".Sh FILES", *blocks_lines(noted["Files"]), ".Sh EXIT STATUS", *tagged(top.statuses)]
    lines += [".Sh EXAMPLES", *examples(examples_of(noted)), ".Sh DIAGNOSTICS", *blocks_lines(noted["Faults"])]
    limits = next(it for it in section(f"{docs}/formats.md", "Limits") if it.startswith("|"))
    lines += [".Sh LIMITS", *block_lines("\n".join(f"- {alone(what)}: {least} to {most}" for what, least, most in rows_of(limits)))]
    lines += [".Pp", *blocks_lines(noted["Limits"])]
    lines += see_also(("cs_cli", 1), ("sha256sum", 1), ("pinepolo\\-catalog", 5))
    lines += [".Sh REPORTING BUGS", *blocks_lines(noted["Reporting bugs"])]
    return page("pinepolo", 1, "check column stores, and rebuild what lost sites took from them", lines)


def cs_cli_page(verbs, top, noted):
    lines = [".Sh SYNOPSIS", ".Nm"]
    for verb in verbs:
        lines += [".Nm", *synopsis(verb)]
    lines += [".Sh DESCRIPTION", *blocks_lines(noted["cs_cli"])]
    lines += [".Sh ENVIRONMENT", *blocks_lines(noted["Environment"])]
    lines += [".Sh EXIT STATUS", *tagged(it for it in top.statuses if int(it[0]) <= 4)]
    lines += [".Sh EXAMPLES", *examples(examples_of(noted, program="cs_cli")), *see_also(("pinepolo", 1))]
    return page("cs_cli", 1, "check column stores and recover lost files, for scripts", lines)


def catalog_page(noted, docs, example):
    """The page of the catalog, from the documents and an example."""
    lines = [".Sh DESCRIPTION", *blocks_lines(noted["Catalog"])]
    for block in section(f"{docs}/catalogs.md", "A catalog, member by member"):
        if block.startswith("|"):
            head = block.split("\n")[0].strip("| ").split(" | ")[0]
            lines += [".Pp", f"{head}:", *table((name, alone(text)) for name, text in rows_of(block))]
        elif lines[-1] == ".El" and not block.startswith("```"):
            lines += [".Pp", *block_lines(block)]
    with open(example, encoding="utf-8") as file:
        lines += [".Sh EXAMPLES", *text_lines(noted["Catalog example"][0]), *literal(file.read().rstrip().split("\n"))]
    rules = section(f"{docs}/formats.md", "The catalog")
    begin = next(at for at, it in enumerate(rules) if it.startswith("Its rules"))
    lines += [".Sh RULES", *blocks_lines(["The" + rules[begin].removeprefix("Its"), *rules[begin + 1:]])]
    lines += [".Sh SITES FILE", *blocks_lines(section(f"{docs}/formats.md", "A SITES file"))]
    lines += see_also(("pinepolo", 1), ("pinepolo\\-design", 1))
    return page("pinepolo-catalog", 5, "the layout of a store: its copies, their orders, and the sites of their segments", lines)
