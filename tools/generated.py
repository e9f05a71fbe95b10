"""Files that a script makes: written, or held against those that are there."""
import os
import sys

ROOT = os.path.dirname(os.path.dirname(os.path.abspath(__file__)))


def write(files):
    """Writes files, given their bytes by path from the repository's folder."""
    for path, data in files.items():
        whole = os.path.join(ROOT, path)
        os.makedirs(os.path.dirname(whole), exist_ok=True)
        with open(whole, "wb") as f:
            f.write(data)


def there(path):
    """The bytes of a file of the repository, or None."""
    whole = os.path.join(ROOT, path)
    if not os.path.exists(whole):
        return None
    with open(whole, "rb") as f:
        return f.read()


def check(files):
    """Says which files have other bytes, and ends with status 1 if one has."""
    wrong = [path for path, data in files.items() if there(path) != data]
    for path in wrong:
        print("%s is not what %s makes" % (path, os.path.basename(sys.argv[0])))
    print("%s: %d files, %d differ" % (os.path.basename(sys.argv[0]), len(files), len(wrong)))
    sys.exit(1 if wrong else 0)
