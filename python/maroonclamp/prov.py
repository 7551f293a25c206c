"""Where the results of a process came from, as W3C PROV-JSON (https://www.w3.org/submissions/prov-json/).

A value is an entity, a folder a collection of its files, a process an activity that the engine is associated with, with its stored definition as the plan. INPUT_CALC and INPUT_WORK are
`used`, CREATE is `wasGeneratedBy`, a call is `wasStartedBy` the caller, and a process that took another one's outcome `wasInformedBy` it. RETURN makes nothing new: what a chain gave back is an
entity that the chain generated, and a specialization of the value. A store has no dates: of its processes the numbers of the batches are told in which they started and ended.
"""
import hashlib
import json

from . import picture
from .values import Folder, as_json, kind_of
from .world import ProcessNode

ROLES = {"INPUT_CALC": "used", "INPUT_WORK": "used", "CREATE": "wasGeneratedBy", "CALL_CALC": "wasStartedBy", "CALL_WORK": "wasStartedBy"}


def with_calls(world, number):
    """A process and all that it called, directly or through calls."""
    found = [number]
    for it in found:
        found += [called for _, called in world.process(it).calls]
    return found


def reached(process):
    """The numbers of the process, of all that it called, of their inputs and outputs, and of all that these came from; and the links between them."""
    world = process.store._world
    own = with_calls(world, process.number)
    seeds = own + [node for it in own for _, node in world.process(it).inputs + world.process(it).outputs]
    kept, _ = picture.leading_to(picture.sources(world), dict.fromkeys(seeds))
    within = set(kept)
    return sorted(within), [it for it in world.links if it[0] in within and it[1] in within]


def literal(value):
    """A value as an attribute: a number, a truth and a text by their types, else its JSON."""
    kind = kind_of(value)
    if kind == "int":
        return {"$": str(value), "type": "xsd:long"}
    return value if kind in ("bool", "text") else as_json(value)


def entity(document, it):
    """The entity of a value; of a folder with its files."""
    name = f"mc:n{it.number}"
    if not isinstance(it.value, Folder):
        document["entity"][name] = {"prov:label": f"value {it.number}", "prov:type": qualified(f"mc:{kind_of(it.value)}"), "prov:value": literal(it.value)}
        return
    document["entity"][name] = {"prov:label": f"folder {it.number}", "prov:type": qualified("prov:Collection")}
    for k, (file, data) in enumerate(it.value.items()):
        document["entity"][f"{name}_{k}"] = {"prov:label": file, "mc:bytes": len(data), "mc:sha256": hashlib.sha256(data).hexdigest()}
        document["hadMember"][f"_:m{it.number}_{k}"] = {"prov:collection": name, "prov:entity": f"{name}_{k}"}


def qualified(name):
    """A name as an attribute's value."""
    return {"$": name, "type": "prov:QUALIFIED_NAME"}


def activity(document, world, it):
    """The activity of a process, with its plan."""
    name, plan = f"mc:n{it.number}", f"mc:plan_{it.library}_{it.definition}"
    told = {"prov:label": f"{it.kind} {it.definition}", "prov:type": qualified(f"mc:{it.kind}"), "mc:state": it.state, "mc:startedInBatch": it.started, "mc:endedInBatch": it.ended}
    message = world.exit_message(it)
    if message:
        told["mc:exitMessage"] = message
    if it.now.code is not None:
        told["mc:exitCode"] = it.now.code
    document["activity"][name] = told
    document["entity"][plan] = {"prov:label": f"definition {it.definition}", "prov:type": qualified("prov:Plan"), "mc:text": world.definition_text(it)}
    document["wasAssociatedWith"][f"_:a{it.number}"] = {"prov:activity": name, "prov:agent": "mc:engine", "prov:plan": plan}
    if it.now.source and f"mc:n{it.now.source}" in document["names"]:
        document["wasInformedBy"][f"_:i{it.number}"] = {"prov:informed": name, "prov:informant": f"mc:n{it.now.source}"}


def relation(document, k, link):
    """A link between two nodes."""
    source, target, kind, label = link
    at, to = f"mc:n{source}", f"mc:n{target}"
    if kind == "RETURN":
        given = f"mc:returned_{k}"
        document["entity"][given] = {"prov:label": f"{label} of {source}"}
        document["wasGeneratedBy"][f"_:r{k}"] = {"prov:entity": given, "prov:activity": at, "prov:role": label}
        document["specializationOf"][f"_:s{k}"] = {"prov:specificEntity": given, "prov:generalEntity": to}
        return
    ends = {"used": ("prov:activity", to, "prov:entity", at), "wasGeneratedBy": ("prov:entity", to, "prov:activity", at), "wasStartedBy": ("prov:activity", to, "prov:starter", at)}
    one, this, other, that = ends[ROLES[kind]]
    document[ROLES[kind]][f"_:l{k}"] = {one: this, other: that, "prov:role": label, "mc:link": kind}


def document_of(process):
    """The document, as dictionaries. Its names stand in a space of their own, which is drawn from what it holds."""
    world = process.store._world
    numbers, links = reached(process)
    parts = ("entity", "activity", "used", "wasGeneratedBy", "wasStartedBy", "wasInformedBy", "wasAssociatedWith", "specializationOf", "hadMember")
    document = {part: {} for part in parts}
    document["names"] = {f"mc:n{number}" for number in numbers}
    for number in numbers:
        it = world.node(number)
        activity(document, world, it) if isinstance(it, ProcessNode) else entity(document, it)
    for k, link in enumerate(links):
        relation(document, k, link)
    del document["names"]
    document["agent"] = {"mc:engine": {"prov:type": qualified("prov:SoftwareAgent"), "prov:label": "Maroonclamp"}}
    space = hashlib.sha256(json.dumps(document, sort_keys=True).encode()).hexdigest()[:32]
    return {"prefix": {"mc": f"urn:maroonclamp:{space}:"}, **{part: it for part, it in document.items() if it}}


def text(process):
    """The document as JSON."""
    return json.dumps(document_of(process), ensure_ascii=True, indent=1) + "\n"
