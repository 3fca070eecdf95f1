"""The programs that check compiles beside its own files, and the flags of its compilers."""

STRICT = "-Wall -Wextra -Wpedantic -Wconversion -Wsign-conversion -Werror -g".split()
# The language of each compiler and its versions: the header is used in all of them.
LANGUAGES = {"gcc": ("c", "c99", "c11"), "clang": ("c", "c99", "c11"), "g++": ("c++", "c++11", "c++17"),
             "clang++": ("c++", "c++11", "c++17")}
# All versions of the languages, and what else the compilers warn of: a program may have that as errors.
VERSIONS = {"c": ("c99", "c11", "c17", "c2x"), "c++": ("c++11", "c++14", "c++17", "c++20")}
WARNINGS = ("-Wshadow -Wcast-qual -Wcast-align -Wundef -Wswitch-enum -Wmissing-declarations -Wredundant-decls "
            "-Wvla").split()
MORE_WARNINGS = {
    "gcc": "-Wbad-function-cast -Wc++-compat -Wdeclaration-after-statement -Wstrict-prototypes -Wlogical-op".split(),
    "clang": "-Wbad-function-cast -Wshadow-all -Wimplicit-int-conversion -Wcomma -Wstrict-prototypes".split(),
    "g++": "-Wold-style-cast -Wuseless-cast -Wzero-as-null-pointer-constant -Weffc++".split(),
    "clang++": "-Wold-style-cast -Wzero-as-null-pointer-constant -Wshadow-all -Wextra-semi".split(),
}
# A program that calls each function, in C and in C++.
CALLER = """\
#include "trdp_node.h"
int call(struct trdp_node_event *event, struct trdp_node_done *done, struct trdp_node_record *record);
int call(struct trdp_node_event *event, struct trdp_node_done *done, struct trdp_node_record *record)
{
    struct trdp_node node = TRDP_NODE_NONE;
    struct trdp_node_fault fault;
    struct trdp_node_text text;
    struct trdp_node_state state;
    struct trdp_node_name name;
    if (trdp_node_open(&node, "", 0, &fault) != TRDP_NODE_OK) return 1;
    if (trdp_node_step(&node, event, "", 0, done) != TRDP_NODE_OK) return 2;
    if (trdp_node_record(&node, 0, record) != TRDP_NODE_OK) return 3;
    if (trdp_node_line(&node, "", 0, &text) != TRDP_NODE_OK) return 4;
    if (trdp_node_text(&node, &text) != TRDP_NODE_OK) return 5;
    if (trdp_node_state(&node, &state) != TRDP_NODE_OK) return 6;
    if (trdp_node_refusal_name(record->code, &name) != TRDP_NODE_OK) return 7;
    if (trdp_node_fault_name(done->status, &name) != TRDP_NODE_OK) return 8;
    if (trdp_node_reason_name(record->code, &name) != TRDP_NODE_OK) return 9;
    trdp_node_close(&node);
    return 0;
}
"""
# A program that finds the installed library, and the same for CMake.
PROGRAM = """\
#include <trdp_node.h>
int main(void)
{
    struct trdp_node node = TRDP_NODE_NONE;
    struct trdp_node_fault fault;
    return trdp_node_open(&node, "", 0, &fault) != TRDP_NODE_BAD_CONFIG;
}
"""
PROJECT = """\
cmake_minimum_required(VERSION 3.14)
project(Program LANGUAGES C)
function(look)
    find_package(TrdpNode 1.0 REQUIRED)
endfunction()
look()
find_package(TrdpNode 1.0 REQUIRED)
add_executable(shared program.c)
target_link_libraries(shared TrdpNode::trdp_node)
add_executable(static program.c ${TrdpNode_MEMORY})
target_link_libraries(static TrdpNode::trdp_node_static)
"""
# Functions whose stack has no bound: one calls itself, one has an array of any length, one calls an address that it
# gets, and the address of one is kept.
UNBOUNDED = (
    "int trdp_node_a(int x) { return x ? trdp_node_a(x / 3) + x : 0; }",
    "int f(char *); int trdp_node_a(int x) { char all[x]; return f(all) + 1; }",
    "int trdp_node_a(int (*f)(int)) { return f(3) + 1; }",
    "int trdp_node_a(int x) { return x; }\nint (*const kept[])(int) = { trdp_node_a };",
)
