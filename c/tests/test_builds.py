"""How programs find the library for C by CMake, and how the archive of the C file is built."""

import os
import shutil

import pytest
from builds import PROJECT, by_cmake, need_cmake, version_of
from known import CANONICAL
from needs import need, need_here
from shared import ROOT, run, said, text_of, write

pytestmark = pytest.mark.slow
# Versions that a project asks for, where the library's is MAJOR.MINOR.x, by whether CMake finds them.
ASKED = {
    "{0}.{1}.{2}": True, "{0}.0": True, "{0}.{1}.{2} EXACT": True, "{3}.0": False, "{0}.{4}": False,
    "{0}.999 EXACT": False,
}  # fmt: skip


def test_cmake(c_library: str, folder: str) -> None:
    by_cmake(folder, c_library)


@pytest.mark.parametrize("asked, is_found", ASKED.items())
def test_version_by_cmake(tested: str, c_library: str, folder: str, asked: str, is_found: bool) -> None:
    """CMake finds no later version than this one."""
    need_cmake()
    first, second, third = map(int, version_of(tested).partition("-")[0].split("."))
    write("CMakeLists.txt", PROJECT.format(version=asked.format(first, second, third, first + 1, second + 1)))
    shutil.copy(f"{ROOT}/c/tests/library.cc", "library.cc")
    ran = run(["cmake", "-S", folder, "-B", f"{folder}/build", f"-DCMAKE_PREFIX_PATH={c_library}"])
    assert (ran.status == 0) == is_found, ran.err.decode()


# How the archive of the C file is built and installed: without optimisation, which takes long.
BY_CMAKE = ["cmake -S archive -B {0}-build -DCMAKE_C_FLAGS_RELEASE=-O0", "cmake --build {0}-build"]
BY_CMAKE += ["cmake --install {0}-build --prefix {0}"]
WAYS = {
    "make": ["make -s -C archive CFLAGS=-O0 PREFIX=../make install"],
    "cmake": BY_CMAKE,
    "shared": [f"{BY_CMAKE[0]} -DBUILD_SHARED_LIBS=ON", *BY_CMAKE[1:]],
}
INSTALLED = ["bin/dnorm", "include/dnorm.h", "include/dnorm.hpp", "include/dnorm_codes.h", "include/dnorm_tools.h"]
INSTALLED += ["lib/cmake/dnorm/dnorm-config-version.cmake", "lib/cmake/dnorm/dnorm-config.cmake"]
INSTALLED += ["lib/pkgconfig/dnorm.pc"]
# A project that takes the library from a folder of its own.
PARENT = """cmake_minimum_required(VERSION 3.14)
project(reads LANGUAGES C CXX)
set(CMAKE_CXX_STANDARD 17)
add_subdirectory(../archive archive)
add_executable(reads ../library.cc)
target_link_libraries(reads dnorm::dnorm)
"""


@pytest.fixture
def archive(tested: str, folder: str) -> str:
    """A folder with what the archive of the C file has: of the one that make has built, or else the released one."""
    need_cmake()
    need_here("released/c")
    found = [it for it in (f"{ROOT}/build", f"{ROOT}/released/c") if os.path.exists(f"{it}/libdnorm.c")]
    assert run([f"{ROOT}/c/file/stage", "archive", f"{found[0]}/libdnorm.c", version_of(tested)]) == said()
    return f"{folder}/archive"


@pytest.mark.parametrize("way", WAYS)
def test_archive(tested: str, archive: str, folder: str, way: str) -> None:
    """Each way to build the C file installs the same files, which CMake and pkg-config find."""
    need("pkg-config")
    for step in WAYS[way]:
        assert run(step.format(way).split(), limit=None).status == 0, step
    found = sorted(os.path.relpath(f"{at}/{it}", way) for at, _, names in os.walk(way) for it in names)
    version = version_of(tested)
    libraries = ["lib/libdnorm.a"] if way != "shared" else [f"lib/libdnorm.so{it}" for it in ["", ".3", f".{version}"]]
    assert found == sorted([*INSTALLED, *libraries])
    assert run([f"{way}/bin/dnorm", "--version"]).out.startswith(f"dnorm {version}\n".encode())
    environment = {**os.environ, "PKG_CONFIG_PATH": f"{folder}/{way}/lib/pkgconfig"}
    assert run(["pkg-config", "--modversion", "dnorm"], env=environment) == said(f"{version}\n")
    if way != "shared":
        by_cmake(f"{folder}/project", f"{folder}/{way}")
        return
    told = run(["readelf", "-d", "shared/lib/libdnorm.so"]).out
    assert b"Library soname: [libdnorm.so.3]" in told


def test_archive_is_optimised(archive: str, folder: str) -> None:
    """What users build without a word is what the page measures."""
    assert run(["cmake", "-S", "archive", "-B", "build"]).status == 0
    assert "-O3" in text_of("build/CMakeFiles/dnorm_library.dir/flags.make")


def test_archive_in_a_project(archive: str, folder: str) -> None:
    """Another project gets the library, without the program, and installs nothing of it."""
    shutil.copy(f"{ROOT}/c/tests/library.cc", "library.cc")
    os.mkdir("parent")
    write("parent/CMakeLists.txt", PARENT)
    for words in ["-S parent -B build", "--build build", "--install build --prefix put"]:
        assert run(["cmake", *words.split()], limit=None).status == 0, words
    text, *forms = CANONICAL[0]
    assert run(["build/reads"], text) == said(b"".join(forms))
    assert not os.path.exists("build/archive/dnorm") and not os.path.exists("put")
