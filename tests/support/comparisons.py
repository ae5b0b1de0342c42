"""Comparisons of answers with expected ones."""


def status_of(comparisons):
    """Prints the comparisons that fail, each a name, an answer and the expected one, and how many there are of both.
    Returns the status of the script: 0, or 1 if one fails.
    """
    passed = failed = 0
    for name, answer, expected in comparisons:
        if answer == expected:
            passed += 1
        else:
            failed += 1
            print(f"{name}:\n  {answer}\n  expected {expected}")
    print(f"{passed} passed, {failed} failed")
    return 1 if failed else 0
