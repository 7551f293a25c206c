"""A process with its files as an RO-Crate of the kind Process Run Crate (https://w3id.org/ro/wfrun/process/0.5): a folder for a paper's data archive.

Each process that ended is a CreateAction, whose instrument is a job's program, or the stored definition of a function or a chain. Values are PropertyValues, the files of folders are files of the
crate, and so is what stands in a job's folder, as far as that is there still. The moments of a job are those of its files; a store has no dates.
"""
import datetime
import json
import os
import re
import shutil
import urllib.parse

from . import prov, report
from .errors import MaroonclampError
from .store import Process
from .values import Folder, as_json, kind_of
from .world import ProcessNode

CONTEXT = ["https://w3id.org/ro/crate/1.1/context", "https://w3id.org/ro/terms/workflow-run/context"]
CRATE, KIND = "https://w3id.org/ro/crate/1.1", "https://w3id.org/ro/wfrun/process/0.5"


class Crate:
    """A crate that is being filled: its folder, and its entities by their names."""

    def __init__(self, folder):
        self.folder, self.entities, self.files = folder, {}, []
        os.makedirs(folder)

    def add(self, at, kind, **told):
        """An entity, and its name. What is None is left out."""
        self.entities[at] = {"@id": at, "@type": kind, **{key: it for key, it in told.items() if it is not None}}
        return at

    def place(self, path):
        """Where a file of the crate stands."""
        place = os.path.join(self.folder, *path.split("/"))
        os.makedirs(os.path.dirname(place), exist_ok=True)
        return place

    def listed(self, path, **told):
        """The entity of a file that stands there, and its name."""
        self.files.append(path)
        size = os.path.getsize(self.place(path))
        return self.add(path, "File", name=told.pop("name", os.path.basename(path)), contentSize=str(size), **told)

    def file(self, path, data, **told):
        """A file with these bytes, and its name."""
        with open(self.place(path), "wb") as it:
            it.write(data)
        return self.listed(path, **told)

    def copy(self, path, source, **told):
        """A copy of a file, and its name."""
        shutil.copyfile(source, self.place(path))
        return self.listed(path, **told)


def plain_name(name, k):
    """A name that a file may have in any folder and address: of another one its signs are replaced, and its place in the folder stands before."""
    return name if re.fullmatch(r"[A-Za-z0-9_-][A-Za-z0-9._-]*", name) else f"{k}_" + re.sub(r"[^A-Za-z0-9._-]", "_", name)


def refer(names):
    """References to entities."""
    return [{"@id": it} for it in names]


def moment(path):
    """When a file was written last, or None."""
    try:
        return datetime.datetime.fromtimestamp(os.stat(path).st_mtime, datetime.timezone.utc).isoformat(timespec="seconds")
    except OSError:
        return None


def values_of(crate, world, links):
    """The names of the entities of inputs or outputs."""
    found = []
    for label, number in links:
        value = world.node(number).value
        if isinstance(value, Folder):
            found += [crate.file(f"values/{number}/{plain_name(name, k)}", data, name=name) for k, (name, data) in enumerate(value.items())]
        else:
            name = f"#value-{number}"
            told = value if kind_of(value) in ("int", "bool", "text") else as_json(value)
            crate.add(name, "PropertyValue", name=label, value=told, additionalType=kind_of(value))
            found.append(name)
    return list(dict.fromkeys(found))


def folder_of(crate, process):
    """The names of the files of a job's folder, without those of the engine that aren't the request or the status."""
    found = []
    try:
        names = sorted(os.listdir(process.folder))
    except OSError:
        return found
    for k, name in enumerate(names):
        path = os.path.join(process.folder, name)
        if os.path.isfile(path) and not os.path.islink(path) and (not name.startswith("_wc_") or name in ("_wc_request", "_wc_status")):
            found.append(crate.copy(f"jobs/{process.number}/{plain_name(name, k)}", path, name=name))
    return found


def instrument_of(crate, process):
    """The name of what did the work: a job's program where its request tells, else the stored definition."""
    it = process._it
    request = report.request(process) if it.kind == "calcjob" else None
    if request:
        return crate.add("#program-" + urllib.parse.quote(request["program"], safe=""), "SoftwareApplication", name=request["program"])
    file = f"definitions/{it.library}.wcf"
    if file not in crate.entities:
        crate.file(file, process.store._world.libraries[it.library - 1].encode("utf-8"))
        crate.entities[file]["@type"] = ["File", "SoftwareSourceCode"]
    return crate.add(f"{file}#{it.definition}", "SoftwareSourceCode", name=it.definition, isPartOf={"@id": file}, text=process.source)


def action_of(crate, process):
    """The action of a process that ended."""
    it, world = process._it, process.store._world
    status = "CompletedActionStatus" if process.is_well else "FailedActionStatus"
    is_job = it.kind == "calcjob"
    outputs = values_of(crate, world, sorted(it.outputs)) + (folder_of(crate, process) if is_job else [])
    crate.add(
        f"#process-{it.number}",
        "CreateAction",
        name=f"{it.kind} {it.definition}, process {it.number}",
        description=report.command(process) if is_job else None,
        instrument={"@id": instrument_of(crate, process)},
        object=refer(values_of(crate, world, sorted(it.inputs))),
        result=refer(outputs),
        actionStatus={"@id": f"http://schema.org/{status}"},
        error=None if process.is_well else it.state + (f": {process.exit_message}" if process.exit_message else ""),
        startTime=moment(os.path.join(process.folder, "_wc_request")) if is_job else None,
        endTime=moment(os.path.join(process.folder, "_wc_status")) if is_job else None,
    )


def described(crate, process, licence):
    """The entities of the crate itself."""
    now = datetime.datetime.now(datetime.timezone.utc).isoformat(timespec="seconds")
    actions = [name for name in crate.entities if name.startswith("#process-")]
    crate.add(KIND, "CreativeWork", name="Process Run Crate", version="0.5")
    crate.add("ro-crate-metadata.json", "CreativeWork", about={"@id": "./"}, conformsTo={"@id": CRATE})
    crate.add(
        "./",
        "Dataset",
        name=f"{process.kind} {process.definition}, process {process.number} of a store of Maroonclamp",
        description=f"The process ended as {process.state}. With it stand all that it called, and all that its values came from.",
        datePublished=now,
        license={"@id": licence} if licence else "not said",
        conformsTo={"@id": KIND},
        hasPart=refer(dict.fromkeys(crate.files)),
        mentions=refer(actions),
    )
    if licence:
        crate.add(licence, "CreativeWork", name=licence)


def write(process, folder, licence=None):
    """Writes the crate into a folder that isn't there yet, and answers its path. With it goes the provenance as PROV-JSON."""
    if process.is_live:
        raise MaroonclampError(f"process {process.number} hasn't ended: {process.state}")
    if os.path.lexists(folder):
        raise MaroonclampError(f"{folder} is there")
    store, room = process.store, folder + ".part"
    shutil.rmtree(room, ignore_errors=True)
    crate = Crate(room)
    for number in prov.reached(process)[0]:
        it = store._world.node(number)
        if isinstance(it, ProcessNode) and not it.is_live:
            action_of(crate, Process(store, number))
    crate.file("prov.json", prov.text(process).encode(), name="Provenance as W3C PROV-JSON", encodingFormat="application/json")
    described(crate, process, licence)
    with open(os.path.join(room, "ro-crate-metadata.json"), "w", encoding="utf-8") as it:
        json.dump({"@context": CONTEXT, "@graph": list(crate.entities.values())}, it, ensure_ascii=False, indent=1)
        it.write("\n")
    os.rename(room, folder)
    return folder
