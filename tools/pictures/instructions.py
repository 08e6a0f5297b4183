"""What an instruction's text says: its unit, what it reads and writes, and where it goes. docs/instruction-set.md has
the table; here each name has a letter for each register of its text, in their order."""

import re

# w is written; r is read before the main operation issues; l is read late; k is both read late and written. A capital
# stands for the register and the next one.
ROLES = {
    "wrr": "ADD ADDU SUB SUBU AND OR XOR NOR SLT SLTU SLLV SRLV SRAV LB_RR LBU_RR LH_RR LHU_RR LW_RR",
    "wr": "ADDI ADDIU ANDI ORI XORI SLTI SLTIU SLL SRL SRA JALR LB LBU LH LHU LW",
    "w": "LUI MFHI MFLO",
    "r": "JR BLEZ BGTZ BLTZ BGEZ MTHI MTLO DSZ",
    "rr": "BEQ BNE MULT MULTU DIV DIVU DSZ_RR",
    "Wr": "DLW",
    "Wrr": "DLW_RR",
    "kr": "LWL LWR",
    "lr": "SB SH SW SWL SWR",
    "lrr": "SB_RR SH_RR SW_RR",
    "Lr": "DSW",
    "Lrr": "DSW_RR",
    "": "NOP J JAL SYSCALL BREAK",
}
ROLES_OF = {name: roles for roles, names in ROLES.items() for name in names.split()}
ALSO_READS = {"MFHI": ["hi"], "MFLO": ["lo"]}
ALSO_WRITES = {"MTHI": ["hi"], "MTLO": ["lo"], "JAL": ["$31"], **{name: ["hi", "lo"] for name in "MULT MULTU DIV DIVU".split()}}
MULTIPLIED, DIVIDED, FREE = ("MULT", "MULTU"), ("DIV", "DIVU"), ("NOP", "J", "JAL", "SYSCALL", "BREAK")
LOADS = set("LB LBU LH LHU LW DLW LWL LWR LB_RR LBU_RR LH_RR LHU_RR LW_RR DLW_RR".split())
STORES = set("SB SH SW DSW DSZ SWL SWR SB_RR SH_RR SW_RR DSW_RR DSZ_RR".split())
BRANCHES, JUMPS, BY_REGISTER = set("BEQ BNE BLEZ BGTZ BLTZ BGEZ".split()), ("J", "JAL"), ("JR", "JALR")
REGISTER, TARGET = re.compile(r"\$([0-9]+)"), re.compile(r"0x([0-9a-f]{8})$")


class Instruction:
    """An instruction by its text, or by its name alone, of which registers and target aren't known."""

    def __init__(self, text):
        self.text, self.name = text, text.split(" ")[0]
        self.is_known = self.name in ROLES_OF
        self.reads, self.late, self.writes = [], [], []
        registers = [int(it) for it in REGISTER.findall(text)]
        self.is_whole = self.is_known and len(registers) == len(ROLES_OF[self.name])
        if self.is_whole:
            self.take_registers(registers)

    def take_registers(self, registers):
        for register, role in zip(registers, ROLES_OF[self.name]):
            both = [register, register + 1] if role.isupper() else [register]
            places = [f"${it}" for it in both if it]
            self.reads += places if role == "r" else []
            self.late += places if role in "lkL" else []
            self.writes += places if role in "wkW" else []
        self.reads += ALSO_READS.get(self.name, [])
        self.writes += ALSO_WRITES.get(self.name, [])
        self.reads = list(dict.fromkeys(self.reads))

    def unit(self):
        """alu, multiply, divide, or none; the last one also where the instruction isn't known."""
        if self.name in MULTIPLIED:
            return "multiply"
        if self.name in DIVIDED:
            return "divide"
        return "alu" if self.is_known and self.name not in FREE else "none"

    def kind(self):
        """load, store, call, or other."""
        kinds = {"load": LOADS, "store": STORES, "call": ("SYSCALL",)}
        return next((kind for kind, names in kinds.items() if self.name in names), "other")

    def may_go(self, pc, following):
        """Whether an instruction at pc that is done can be followed by the one at that address."""
        if self.name in BY_REGISTER:
            return True
        target = TARGET.search(self.text)
        ways = {int(target[1], 16)} if target and self.name in BRANCHES.union(JUMPS) else set()
        if self.name in JUMPS:
            return not ways or following in ways
        if self.name in BRANCHES and not ways:
            return True
        return following in ways | {(pc + 8) % 2**32}
