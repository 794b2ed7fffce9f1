"""Text in double quotation marks, in docs/ and in comments of specifications, is quoted: it stands in docs/SCOPE.md, which has the demands, document 01 and
the requests that are in word for word. The first letter may be of the other size, and ' .. ' leaves words out. What is quoted there stands behind a bar."""
import re

from stored import ROOT

UNCHECKED = {"docs/DECISIONS.md"}      # it quotes other pages and our own words too


def plain(text):
    """Without line breaks, bars, stars and the marks of bold type."""
    return re.sub(r"\s+", " ", re.sub(r"(?m)^> ?", "", text).replace("**", "").replace("★ ", "")).strip()


SCOPE = plain((ROOT / "docs/SCOPE.md").read_text("utf-8"))
SCOPE += re.sub(r"`[^`]*`", "``", SCOPE)               # and once more without what is in code type


def stands(part):
    return part in SCOPE or part[0].lower() + part[1:] in SCOPE or part[0].upper() + part[1:] in SCOPE


def paragraphs(path):
    """The paragraphs and rows of a page, or the comments of a source, without what is in code type."""
    text = path.read_text("utf-8")
    if path.suffix == ".md":
        text = re.sub(r"^```.*?^```$", "", text, flags=re.MULTILINE | re.DOTALL)
        found = re.split(r"\n\s*\n|\n(?=[-|#]|\d+\. )", text)
    else:
        found = ["\n".join(re.findall(r"(?m)^\s*(?:--|//) ?(.*)$", block)) for block in re.findall(r"(?m)(?:^\s*(?:--|//).*\n)+", text)]
    return [re.sub(r"`[^`]*`", "``", plain(part)) for part in found]


def main():
    pages = [path for path in (ROOT / "docs").rglob("*.md") if str(path.relative_to(ROOT)) not in UNCHECKED and path.name != "SCOPE.md"]
    sources = list((ROOT / "crates").glob("*/specs/*.antt"))
    count = 0
    for path in [ROOT / "README.md", *pages, *sources]:
        for paragraph in paragraphs(path):
            for quoted in re.findall(r'"([^"]*)"', paragraph):
                for part in quoted.split(" .."):
                    part = part.strip(" .,;:")
                    assert not part or stands(part), f"{path.relative_to(ROOT)} has in quotation marks what docs/SCOPE.md has not: {part}"
                    count += 1
    assert count > 60, count
    print(f"{count} quotations stand in docs/SCOPE.md")


if __name__ == "__main__":
    main()
