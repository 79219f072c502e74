"""What the scripts share that write the cases of a program and their answers, or compare what is stored."""
import sys


def write_or_check(script, wanted, count):
    """Writes each text to its path; with the one word `check` compares them instead, tells how many cases there are, and ends
    with status 1 where one differs."""
    if sys.argv[1:] == ["check"]:
        wrong = [path for path, text in wanted.items() if path.read_text(encoding="utf8") != text]
        for path in wrong:
            print(f"{script}: {path} isn't what this script writes")
        print(f"{script}: {count} cases compared")
        sys.exit(bool(wrong))
    for path, text in wanted.items():
        path.parent.mkdir(exist_ok=True)
        path.write_text(text, encoding="utf8")
