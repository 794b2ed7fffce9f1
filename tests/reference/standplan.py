"""standplan: reads one sheet from standard input, allows waits, prints the plan."""
import sys

from planner import standplan_text

if __name__ == "__main__":
    sys.stdout.write(standplan_text(sys.stdin.buffer.read()))
