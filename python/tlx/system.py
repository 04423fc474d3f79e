"""Systems, of which models and judges are made."""

import os
from collections.abc import Callable, Mapping

from . import _library
from .faults import Fault, InvalidSystem, fault_of
from .messages import check_number

# The bytes of images: by the number of the port, or by a function that reads the file of that name.
Images = Mapping[int, bytes] | Callable[[str], bytes]


class System:
    """A system file, or a script of tlx, which is one (docs/reference/formats.md), with the images of its ports. Any number of models and judges is
    made of it. Its memory is given back when it is dropped; what was made of it stays.

    text: str, or bytes of UTF-8. images: the bytes of the ports' images, by the numbers of the ports that name one; or a function that
    is called with the name of each such file and answers its bytes. TypeError if they are neither; InvalidSystem, with the fault and its
    text, if it is no system file, or an image is not given, is longer than its range, or is of a port that names none.
    """

    __slots__ = ("_handle", "images", "text")

    def __init__(self, text: str | bytes, images: Images | None = None) -> None:
        if isinstance(text, str):
            text = text.encode()
        if not isinstance(text, bytes):
            raise TypeError(f"the text of a system is str or bytes, and not {type(text).__name__}")
        self.text = text
        self._handle = read(_library.read_system, text)
        self.images = _images_of(self._handle, images)
        for port, image in self.images.items():
            check(*_library.put_image(self._handle, port, image))
        # the last faults of a file are those of what is made of it
        make_model(self)

    @classmethod
    def read(cls, path: str | os.PathLike, images: Images | None = None) -> "System":
        """The system that a file has. The files of images are read from its folder, if they are not given; OSError if that fails."""
        with open(path, "rb") as file:
            text = file.read()
        return cls(text, _reader(os.path.dirname(path)) if images is None else images)

    def __reduce__(self):
        return type(self), (self.text, self.images)


def _reader(folder: str | os.PathLike) -> Callable[[str], bytes]:
    """Reads files by their names from a folder on."""

    def read_bytes(name: str) -> bytes:
        with open(os.path.join(folder, name), "rb") as file:
            return file.read()

    return read_bytes


def _images_of(handle: _library.SystemHandle, images: Images | None) -> dict[int, bytes]:
    """The bytes of images by the numbers of their ports."""
    if images is None:
        found = {}
    elif isinstance(images, Mapping):
        found = {check_number("port", port, 64): image for port, image in images.items()}
    elif callable(images):
        found = {port: images(name) for port, name in _library.image_names(handle).items()}
    else:
        raise TypeError(f"images are a mapping from ports to bytes, or a function, and not {type(images).__name__}")
    for image in found.values():
        if not isinstance(image, bytes):
            raise TypeError(f"an image is bytes, and not {type(image).__name__}")
    return found


def read(call, *words):
    """The handle that a call fills; what it raises for a fault."""
    handle, fault, why = call(*words)
    check(fault, why)
    return handle


def check(fault: int, why: str) -> None:
    """Raises what a fault of a text or of an image is."""
    if fault:
        raise InvalidSystem(Fault(fault), why) if fault >= Fault.NOT_TOML else fault_of(fault, why)


def make_model(system: System) -> _library.ModelHandle:
    """The model of a system, with its images."""
    return read(_library.make_model, system._handle)


def make_judge(system: System, links: int, orders: tuple[int, int]) -> _library.JudgeHandle:
    """The judge of a system, with its images."""
    return read(_library.make_judge, system._handle, links, orders)


def check_system(system: object) -> System:
    if not isinstance(system, System):
        raise TypeError(f"a system is a tlx.System, and not {type(system).__name__}")
    return system
