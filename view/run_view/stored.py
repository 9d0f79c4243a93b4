"""The netCDF files of file nodes: which are there, whether they are whole, and single arrays of them.

The netCDF library reads headers and values. Beside that only a file's first eight bytes are looked at (its form, and the number of its
arrays, which stays open in an unfinished file), and its length, from which follows how many arrays are whole.
"""

from __future__ import annotations

import glob
import os
import re
from dataclasses import dataclass, field
from typing import Any, Iterator, Mapping, Optional

import netCDF4
import numpy as np
import numpy.typing as npt
import xarray

from .faults import ViewFault, reason

SAMPLE_TYPES = ("Int8", "UInt8", "Int16", "UInt16", "Int32", "UInt32")
_STORED = (np.int8, np.int8, np.int16, np.int16, np.int32, np.int32)
_MEANT = (np.int8, np.uint8, np.int16, np.uint16, np.int32, np.uint32)
_RECORDS = "numArrays"
_OF_EACH = ("uniqueId", "timeStamp", "epicsTSSec", "epicsTSNsec", "array_data")
_FORMS = {b"CDF\x01": "NETCDF3_CLASSIC", b"CDF\x02": "NETCDF3_64BIT_OFFSET"}
_OPEN = 0xFFFFFFFF
_WORD = 4
_HEADER_AT_MOST = 1 << 24
_SHORTEST_HEADER = 508
_BLOCK = 8192
Samples = npt.NDArray[Any]
_LIBRARY_FAULTS = (OSError, RuntimeError, ValueError, KeyError, IndexError)


@dataclass(frozen=True)
class Layout:
    """What the header of a file says. `sizes` are slowest first as the samples lie, the other lists have dimension 0 (the fastest) first."""

    sample_type: str
    sizes: tuple[int, ...]
    offset: tuple[int, ...]
    binning: tuple[int, ...]
    reverse: tuple[bool, ...]
    header_bytes: int
    record_bytes: int


@dataclass(frozen=True)
class StoredFile:
    """A file of a group. `whole` is how many arrays can be read of it; `fault` says what is wrong where it isn't finished or isn't ours."""

    path: str
    group: int
    size: int
    layout: Optional[Layout]
    whole: int
    fault: Optional[str] = None
    is_open: bool = False


@dataclass(frozen=True)
class FrameFacts:
    """What is known of one array of a file beside its samples: its place there, its id, its time as stored and its attributes."""

    path: str
    place: int
    unique_id: int
    time_stamp: float
    attributes: Mapping[str, Any]
    layout: Layout


@dataclass
class NodeFiles:
    """The files of a file node, in the order of their groups."""

    files: list[StoredFile] = field(default_factory=list)

    def arrays(self) -> int:
        """How many arrays they hold."""
        return sum(file.whole for file in self.files)

    def locate(self, position: int) -> tuple[StoredFile, int]:
        """The file of the array of this position among all of the node, and its place in that file."""
        for file in self.files:
            if position < file.whole:
                return file, position
            position -= file.whole
        raise IndexError(position)


def survey(prefix: str, node: str) -> NodeFiles:
    """Looks at all files of a node. Files that begin alike and are of one length are taken to have one layout."""
    known: dict[tuple[bytes, int], StoredFile] = {}
    found = NodeFiles()
    for group, path in _paths(prefix, node):
        try:
            size = os.path.getsize(path)
            with open(path, "rb") as file:
                begin = file.read(8)
        except OSError as fault:
            found.files.append(StoredFile(path, group, 0, None, 0, f"can't be read: {reason(fault)}"))
            continue
        like = known.get((begin, size))
        if like is None:
            like = known[begin, size] = _look(path, group, begin, size)
        found.files.append(StoredFile(path, group, size, like.layout, like.whole, like.fault, like.is_open))
    return found


def read_frame(file: StoredFile, place: int) -> tuple[FrameFacts, Samples]:
    """Reads one array, with its samples (the slowest dimension first) as numbers of their own type.

    Of an unfinished file the arrays that are whole can be read, too.
    """
    if file.layout is None or not 0 <= place < file.whole:
        raise ViewFault(f"{file.path} has no array {place}")
    try:
        with _dataset(file, place) as data:
            one = data.isel({_RECORDS: 0 if file.fault else place}).load()
    except _LIBRARY_FAULTS as fault:
        raise ViewFault(f"array {place} of {file.path} can't be read: {fault}") from fault
    kind = SAMPLE_TYPES.index(file.layout.sample_type)
    samples = one["array_data"].values.astype(_STORED[kind], copy=False).view(_MEANT[kind])
    attributes = {str(name)[5:]: _plain(value.values) for name, value in one.data_vars.items() if str(name).startswith("Attr_")}
    return FrameFacts(file.path, place, int(one["uniqueId"]), float(one["timeStamp"]), attributes, file.layout), samples


def read_ids(path: str) -> npt.NDArray[np.int64]:
    """The ids of a stack, which count from 1 where it has none."""
    try:
        with xarray.open_dataset(path, engine="netcdf4", mask_and_scale=False, decode_times=False) as data:
            if "uniqueId" in data:
                return np.atleast_1d(data["uniqueId"].values).astype(np.int64)
            return np.arange(1, data["array_data"].shape[0] + 1, dtype=np.int64)
    except _LIBRARY_FAULTS as fault:
        raise ViewFault(f"the stack {path} can't be read: {fault}") from fault


def group_path(prefix: str, node: str, group: int) -> str:
    """The name of the file of a group."""
    return f"{prefix}{node}_{group:03}.nc"


def _paths(prefix: str, node: str) -> Iterator[tuple[int, str]]:
    form = re.compile(re.escape(f"{prefix}{node}_") + r"(\d{3,})\.nc")
    named = ((form.fullmatch(path), path) for path in glob.glob(glob.escape(f"{prefix}{node}_") + "*.nc"))
    groups = [(int(match[1]), path) for match, path in named if match]
    return iter(sorted(pair for pair in groups if pair[1] == group_path(prefix, node, pair[0])))


def _look(path: str, group: int, begin: bytes, size: int) -> StoredFile:
    if not begin:
        return StoredFile(path, group, size, None, 0, "unfinished: it is empty")
    if not any(magic.startswith(begin[:4]) for magic in _FORMS):
        return StoredFile(path, group, size, None, 0, f"isn't a file of a file node: {_other_form(begin)}")
    if size < _SHORTEST_HEADER:
        return StoredFile(path, group, size, None, 0, "unfinished: its header is cut off")
    form = _FORMS[begin[:4]]
    try:
        with netCDF4.Dataset(path, memory=_head(path)) as header:
            layout = _layout(header, form)
    except ViewFault as fault:
        return StoredFile(path, group, size, None, 0, str(fault))
    except _LIBRARY_FAULTS:
        return StoredFile(path, group, size, None, 0, "unfinished, or no netCDF file: its header can't be read")
    if size < layout.header_bytes:
        return StoredFile(path, group, size, None, 0, "unfinished: its header is cut off")
    declared = int.from_bytes(begin[4:8], "big")
    room = max(0, size - layout.header_bytes) // layout.record_bytes
    end = layout.header_bytes + declared * layout.record_bytes
    if declared == _OPEN:
        words = f"unfinished: the number of its arrays was never written; {room} are whole"
        return StoredFile(path, group, size, layout, room, words, True)
    if size < end:
        return StoredFile(path, group, size, layout, room, f"unfinished: {room} of its {declared} arrays are whole")
    if size > end:
        return StoredFile(path, group, size, layout, declared, f"has {size - end} bytes more than its {declared} arrays take")
    return StoredFile(path, group, size, layout, declared)


def _head(path: str, records: int = 0) -> bytearray:
    """The front of a file, with another number of records written in it. The library reads by blocks, so a short one is filled up."""
    with open(path, "rb") as file:
        head = bytearray(file.read(_HEADER_AT_MOST))
    head[4:8] = records.to_bytes(4, "big")
    return head.ljust(_BLOCK, b"\0")


def _layout(header: netCDF4.Dataset, form: str) -> Layout:
    """Reads the definitions of a file of a file node; says what is missing where it is none."""
    missing = [name for name in _OF_EACH if name not in header.variables]
    if missing or _RECORDS not in header.dimensions:
        raise ViewFault(f"isn't a file of a file node: it has no {' and no '.join(missing or [_RECORDS])}")
    kind = int(header.__dict__.get("dataType", -1))
    samples = header.variables["array_data"]
    if not 0 <= kind < len(SAMPLE_TYPES) or samples.dtype != _STORED[kind]:
        raise ViewFault(f"isn't a file of a file node: dataType {kind} with samples of type {samples.dtype}")
    if any(variable.dimensions[:1] != (_RECORDS,) for variable in header.variables.values()):
        raise ViewFault(f"isn't a file of a file node: not every variable has a value for each of {_RECORDS}")
    rank = samples.ndim - 1

    def numbers(name: str, default: int) -> tuple[int, ...]:
        given = np.atleast_1d(header.__dict__.get(name, ()))
        return tuple(int(number) for number in given) if len(given) == rank else (default,) * rank

    return Layout(
        SAMPLE_TYPES[kind],
        tuple(int(size) for size in samples.shape[1:]),
        numbers("dimOffset", 0),
        numbers("dimBinning", 1),
        tuple(number != 0 for number in numbers("dimReverse", 0)),
        _header_bytes(header, form),
        sum(_record_bytes(variable) for variable in header.variables.values()),
    )


def _header_bytes(header: netCDF4.Dataset, form: str) -> int:
    """How long a header of these definitions is: that of a file without records that the library itself makes of them."""
    twin = netCDF4.Dataset("twin", "w", format=form, memory=1)
    twin.set_fill_off()
    for name, dimension in header.dimensions.items():
        twin.createDimension(name, None if dimension.isunlimited() else len(dimension))
    for name in header.ncattrs():
        twin.setncattr(name, header.getncattr(name))
    for name, variable in header.variables.items():
        made = twin.createVariable(name, variable.dtype, variable.dimensions)
        for attribute in variable.ncattrs():
            made.setncattr(attribute, variable.getncattr(attribute))
    return len(twin.close())


def _record_bytes(variable: netCDF4.Variable) -> int:
    """What a record of a variable takes, filled up to whole words."""
    size = int(np.prod(variable.shape[1:], dtype=np.int64)) * int(variable.dtype.itemsize)
    return -(-size // _WORD) * _WORD


def _dataset(file: StoredFile, place: int) -> xarray.Dataset:
    """The file as a dataset; of a file with a fault one in memory that has only the array of this place."""
    source: Any = file.path
    if file.fault and file.layout:
        layout = file.layout
        part = _head(file.path, 1)[: layout.header_bytes]
        with open(file.path, "rb") as stored:
            stored.seek(layout.header_bytes + place * layout.record_bytes)
            part += stored.read(layout.record_bytes)
        source = xarray.backends.NetCDF4DataStore(netCDF4.Dataset(file.path, memory=part.ljust(_BLOCK, b"\0")))
        return xarray.open_dataset(source, mask_and_scale=False, decode_times=False)
    return xarray.open_dataset(source, engine="netcdf4", mask_and_scale=False, decode_times=False)


def _plain(value: npt.NDArray[Any]) -> Any:
    """An attribute's value as a number or a text of Python's."""
    if value.dtype.kind in "SU":
        text = value.item() if value.ndim == 0 else b"".join(value.tolist())
        return text.split(b"\0")[0].decode("utf-8", "replace") if isinstance(text, bytes) else str(text)
    return value.item() if value.ndim == 0 else value.tolist()


def _other_form(begin: bytes) -> str:
    if begin.startswith(b"\x89HDF") or begin.startswith(b"CDF\x05"):
        return "it is in another form of netCDF"
    return "it is no netCDF file in the classic form"
