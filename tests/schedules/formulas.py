"""The flows of the formulas, by the operations of flows."""
import ast
import os

NAMES = {"Add": "add", "Sub": "sub", "Mult": "mul", "BitAnd": "and", "BitOr": "or", "BitXor": "xor", "LShift": "sll", "RShift": "srl"}
CALLS = {"slt": "slt", "sltu": "sltu", "sar": "sra", "mulhu": "mulhu"}


class Lines:
    """The lines of a flow that are made of a formula, and the names of what they define."""

    def __init__(self):
        self.lines, self.known = [], {}

    def named(self, what):
        """The name of a constant or of an operation on two names."""
        if what not in self.known:
            self.known[what] = f"n{len(self.known)}"
            self.lines.append(f"def {self.known[what]} {what}")
        return self.known[what]

    def of(self, node):
        """The name of a part of a formula."""
        if isinstance(node, ast.Name):
            return node.id
        if isinstance(node, ast.Constant):
            return self.named(f"const {node.value}")
        if isinstance(node, ast.UnaryOp):
            word = self.of(node.operand)
            return self.named(f"nor {word} {word}")
        if isinstance(node, ast.Call):
            return self.named(f"{CALLS[node.func.id]} {' '.join(map(self.of, node.args))}")
        return self.named(f"{NAMES[type(node.op).__name__]} {self.of(node.left)} {self.of(node.right)}")


def flow_text(formula, size, words):
    """The text of the flow of a formula of x, y and z, with these words."""
    made = Lines()
    out = made.of(ast.parse(formula, mode="eval").body)
    inputs = [f"input {name} {word}" for name, word in zip("xyz", words)]
    return "\n".join([f"grid {size[0]} {size[1]}", *inputs, *made.lines, f"out {out}"]) + "\n"


def pairs():
    """The formulas that say the same, in pairs."""
    with open(f"{os.path.dirname(os.path.abspath(__file__))}/formulas") as file:
        lines = [line.strip() for line in file.read().partition("\n\n")[2].splitlines()]
    return [(lines[k], lines[k + 1]) for k, line in enumerate(lines) if not line.startswith("#") and lines[k - 1].startswith("#")]
