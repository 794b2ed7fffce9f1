"""standprice: reads one sheet from standard input, allows waits, prints the price of its control box."""
import sys

from price import price_text

if __name__ == "__main__":
    sys.stdout.write(price_text(sys.stdin.buffer.read()))
