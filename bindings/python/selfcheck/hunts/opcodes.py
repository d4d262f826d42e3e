"""Which of the interpreter's opcodes are steps of a schedule, and what they are called."""

import builtins
import dis
import functools
import os
import types

# Opcodes that touch nothing but the frame's own stack and names, or call what has steps of its own,
# or read what the step before them has just got. All others are steps, those that a later
# interpreter adds among them.
_OWN = set(
    "BEFORE_WITH BINARY_OP BUILD_CONST_KEY_MAP BUILD_LIST BUILD_MAP BUILD_SLICE BUILD_STRING "
    "BUILD_TUPLE CACHE "
    "CHECK_EXC_MATCH COMPARE_OP COPY COPY_FREE_VARS DUP_TOP DUP_TOP_TWO END_FOR EXTENDED_ARG "
    "FORMAT_SIMPLE FORMAT_VALUE GEN_START "
    "INSTRUMENTED_RESUME IS_OP JUMP_FORWARD JUMP_IF_FALSE_OR_POP JUMP_IF_NOT_EXC_MATCH "
    "JUMP_IF_TRUE_OR_POP KW_NAMES LOAD_ASSERTION_ERROR LOAD_BUILD_CLASS LOAD_CLOSURE LOAD_CONST "
    "LOAD_FAST LOAD_FAST_AND_CLEAR LOAD_FAST_BORROW LOAD_FAST_BORROW_LOAD_FAST_BORROW "
    "LOAD_FAST_CHECK LOAD_FAST_LOAD_FAST LOAD_METHOD LOAD_SMALL_INT MAKE_CELL MAKE_FUNCTION NOP "
    "NOT_TAKEN "
    "POP_BLOCK POP_EXCEPT POP_ITER POP_JUMP_FORWARD_IF_FALSE POP_JUMP_FORWARD_IF_NONE "
    "POP_JUMP_FORWARD_IF_NOT_NONE POP_JUMP_FORWARD_IF_TRUE POP_JUMP_IF_FALSE POP_JUMP_IF_NONE "
    "POP_JUMP_IF_NOT_NONE POP_JUMP_IF_TRUE POP_TOP PRECALL PUSH_EXC_INFO PUSH_NULL RERAISE RESUME "
    "RETURN_CONST RETURN_GENERATOR RETURN_VALUE ROT_FOUR ROT_N ROT_THREE ROT_TWO SETUP_FINALLY "
    "STORE_FAST STORE_FAST_LOAD_FAST STORE_FAST_STORE_FAST SWAP TO_BOOL UNARY_INVERT "
    "UNARY_NEGATIVE UNARY_NOT "
    "UNARY_POSITIVE UNPACK_SEQUENCE".split()
)
_IS_STEP = [name not in _OWN for name in dis.opname]
# What a global name mostly stays.
_FIXED = (type, types.ModuleType, types.FunctionType, types.BuiltinFunctionType)


def steps_of(code, names):
    """For each instruction of the code, of two bytes, whether it is a step.

    Of a global name that is none where it names a function, a class or a module.
    """
    steps = [_IS_STEP[op] for op in code.co_code[::2]]
    for it in dis.get_instructions(code):
        if it.opname == "LOAD_GLOBAL":
            value = names[it.argval] if it.argval in names else getattr(builtins, it.argval, None)
            steps[it.offset >> 1] = not isinstance(value, _FIXED)
    return steps


@functools.lru_cache(maxsize=4096)
def _names_of(code):
    """The names and lines of the code's instructions, by their places in it.

    A frame that makes a call may be in what the instruction keeps behind it.
    """
    names, line = {}, code.co_firstlineno
    for it in dis.get_instructions(code):
        if it.starts_line:
            line = it.starts_line if it.starts_line is not True else it.line_number
        is_named = isinstance(it.argval, str) and it.opcode not in dis.hasjrel + dis.hasjabs
        names[it.offset] = f"{it.opname} {it.argval}" if is_named else it.opname, line
    for at in range(2, len(code.co_code), 2):
        names.setdefault(at, names[at - 2])
    return names


def operated(code, at):
    """What the instruction at this place does."""
    return _names_of(code)[at][0]


def place(code, at):
    """File and line of the instruction; a file below the current folder by its name there."""
    file, folder = code.co_filename, os.path.join(os.getcwd(), "")
    if file.startswith(folder):
        file = file[len(folder) :]
    return f"{file}:{_names_of(code)[at][1]}"
