"""The text of a schema as trees, which plain_express reads again as the same trees."""
from lib.plain_binding import Bits, Enumeration, Real, Select
from lib.plain_express import (
    INDETERMINATE, Aggregate, Assignment, Binary, BuiltIn, Call, Case, Compound, Constant, Escape, Extent, If, Initialiser, Interval, Item,
    Literal, Logical, Null, OfAttribute, OfGroup, OfIndex, OfRange, OwnAttribute, Query, Repeat, Return, Self, Simple, Skip, Unary, Variable,
)

# ---- expressions


def listed(nodes):
    return ", ".join(map(text_of, nodes))


def literal(value):
    if isinstance(value, str):
        return "'" + value.replace("'", "''") + "'"
    if isinstance(value, Real):
        return f"{value.digits}.E{value.exponent}"
    if isinstance(value, Bits):
        return f"%{value.text}"
    if isinstance(value, Item):
        return f"{value.type}.{value.word}"
    return value.name if isinstance(value, Logical) else "?" if value is INDETERMINATE else str(value)


PLAIN = (Variable, Self, OwnAttribute, Constant, Extent, Call, BuiltIn, OfAttribute, OfGroup, OfIndex, OfRange)


def operand(node):
    """An operand stands in parentheses unless it is a name, a call, an access, or a literal without a sign."""
    is_plain = isinstance(node, PLAIN) or (
        isinstance(node, Literal) and not isinstance(node.value, Real))
    return text_of(node) if is_plain else f"({text_of(node)})"


def called(node):
    return f"{node.function}({listed(node.arguments)})" if node.arguments else node.function


EXPRESSIONS = {
    Literal: lambda it: literal(it.value), Variable: lambda it: it.name, Self: lambda _: "SELF", OwnAttribute: lambda it: it.name,
    Constant: lambda it: it.name, Extent: lambda it: it.entity, Call: called, BuiltIn: called,
    OfAttribute: lambda it: f"{text_of(it.first)}.{it.name}", OfGroup: lambda it: f"{text_of(it.first)}\\{it.entity}",
    OfIndex: lambda it: f"{text_of(it.first)}[{operand(it.index)}]",
    OfRange: lambda it: f"{text_of(it.first)}[{operand(it.low)} : {operand(it.high)}]",
    Unary: lambda it: f"{it.operator} {operand(it.operand)}",
    Binary: lambda it: f"{operand(it.left)} {it.operator} {operand(it.right)}",
    Interval: lambda it: f"{{{operand(it.low)} {it.low_operator} {operand(it.item)} {it.high_operator} {operand(it.high)}}}",
    Query: lambda it: f"QUERY({it.variable} <* {operand(it.source)} | {text_of(it.condition)})",
    Initialiser: lambda it: f"[{listed(it.elements)}]",
}


def text_of(node):
    """The text of an expression or of a statement."""
    return (EXPRESSIONS.get(type(node)) or STATEMENTS[type(node)])(node)


# ---- statements


def statements(several):
    return " ".join(map(text_of, several))


def if_statement(it):
    otherwise = f" ELSE {statements(it.otherwise)}" if it.otherwise else ""
    return f"IF {text_of(it.condition)} THEN {statements(it.statements)}{otherwise} END_IF;"


def case_statement(it):
    actions = " ".join(f"{listed(labels)} : {text_of(action)}" for labels, action in it.actions)
    otherwise = "" if it.otherwise is None else f" OTHERWISE : {text_of(it.otherwise)}"
    return f"CASE {text_of(it.selector)} OF {actions}{otherwise} END_CASE;"


def repeat_statement(it):
    head = ""
    if it.variable:
        head = f" {it.variable} := {operand(it.first)} TO {operand(it.last)}" + (f" BY {operand(it.step)}" if it.step else "")
    head += f" WHILE {text_of(it.condition)}" if it.condition else ""
    head += f" UNTIL {text_of(it.until)}" if it.until else ""
    return f"REPEAT{head}; {statements(it.statements)} END_REPEAT;"


STATEMENTS = {
    Assignment: lambda it: f"{it.name} := {text_of(it.value)};", If: if_statement, Case: case_statement, Repeat: repeat_statement,
    Compound: lambda it: f"BEGIN {statements(it.statements)} END;", Null: lambda _: ";", Skip: lambda _: "SKIP;", Escape: lambda _: "ESCAPE;",
    Return: lambda it: f"RETURN ({text_of(it.value)});",
}

# ---- declarations


def bounds(low, high):
    return f"[{low}:{'?' if high is None else high}]"


def type_text(declared):
    if isinstance(declared, Simple):
        width = "" if declared.width is None else f"({declared.width})"
        return declared.word + width + (" FIXED" if declared.is_fixed else "")
    if isinstance(declared, Enumeration):
        return f"ENUMERATION OF ({', '.join(declared.items)})"
    if isinstance(declared, Select):
        return f"SELECT ({', '.join(declared.members)})"
    if not isinstance(declared, Aggregate):
        return declared
    words = f"OF {'OPTIONAL ' if declared.is_optional else ''}{'UNIQUE ' if declared.is_unique else ''}{type_text(declared.element)}"
    return f"{declared.kind} {words}" if declared.kind == "AGGREGATE" else f"{declared.kind} {bounds(declared.low, declared.high)} {words}"


def attribute_text(name):
    return name if isinstance(name, str) else f"SELF\\{name[0]}.{name[1]}"


def rules_text(word, rules, text):
    lines = [f"  {'' if label[0] == '#' else label + ' : '}{text(told)};\n" for label, told in rules]
    return "".join([f"{word}\n", *lines] if rules else [])


def entity_text(name, entity):
    text = f"ENTITY {name}" + (f" SUBTYPE OF ({', '.join(entity.supertypes)})" if entity.supertypes else "") + ";\n"
    for attribute, it in [*entity.explicit.items(), *entity.redeclared.items()]:
        text += f"  {attribute_text(attribute)} : {'OPTIONAL ' if it.is_optional else ''}{type_text(it.type)};\n"
    derived = [*entity.derived.items(), *entity.derived_again.items()]
    text += "DERIVE\n" if derived else ""
    text += "".join(f"  {attribute_text(it)} : {type_text(one.type)} := {text_of(one.expression)};\n" for it, one in derived)
    text += "INVERSE\n" if entity.inverse else ""
    for attribute, it in entity.inverse.items():
        text += f"  {attribute} : {f'{it.kind} {bounds(it.low, it.high)} OF ' if it.kind else ''}{it.entity} FOR {it.attribute};\n"
    return text + rules_text("UNIQUE", entity.unique, listed) + rules_text("WHERE", entity.rules, text_of) + "END_ENTITY;\n"


def algorithm_text(it):
    text = ""
    for names, local in it.locals:
        text += f"  {', '.join(names)} : {type_text(local.type)}{f' := {text_of(local.expression)}' if local.expression else ''};\n"
    return (f"LOCAL\n{text}END_LOCAL;\n" if it.locals else "") + "".join(f"  {text_of(one)}\n" for one in it.statements)


def function_text(name, it):
    parameters = "; ".join(f"{parameter} : {type_text(declared)}" for parameter, declared in it.parameters)
    return (f"FUNCTION {name}{f' ({parameters})' if parameters else ''} : {type_text(it.result)};\n{algorithm_text(it)}END_FUNCTION;\n")


def schema_text(schema):
    text = f"SCHEMA {schema.name};\n"
    constants = "".join(f"  {name} : {type_text(it.type)} := {text_of(it.expression)};\n" for name, it in schema.constants.items())
    text += f"CONSTANT\n{constants}END_CONSTANT;\n" if constants else ""
    for name, it in schema.types.items():
        text += f"TYPE {name} = {type_text(it.underlying)};\n{rules_text('WHERE', it.rules, text_of)}END_TYPE;\n"
    text += "".join(entity_text(*it) for it in schema.entities.items())
    text += "".join(function_text(*it) for it in schema.functions.items())
    for name, it in schema.rules.items():
        text += f"RULE {name} FOR ({', '.join(it.entities)});\n{algorithm_text(it)}{rules_text('WHERE', it.rules, text_of)}END_RULE;\n"
    return text + "END_SCHEMA;\n"
