"""The documents point at what is there: every relative link of README.md, docs/ and examples/ has its file, and in docs/PROOFS.md every name in a row of a
table that links to files stands in one of them."""
import glob
import os
import re
import sys

LINK = re.compile(r'\]\(([^)#\s]+)(?:#[^)]*)?\)')
NAME = re.compile(r'`([^`]+)`')


def text_of(path):
    if os.path.isdir(path):
        return ''.join(text_of(os.path.join(path, name)) for name in sorted(os.listdir(path)))
    with open(path, encoding='utf-8', errors='replace') as file:
        return file.read()


def stands(name, texts):
    """as a whole word: the neighbours are no letters of a name"""
    return any(re.search(r"(?<![\w'-])" + re.escape(name) + r"(?![\w'-])", text) for text in texts)


def row_faults(line, links):
    if not line.startswith('|') or not links:
        return []
    texts = [text_of(path) for path in links]
    return [name for name in NAME.findall(line) if ' ' not in name and not stands(name, texts)]


def faults_of(document):
    folder = os.path.dirname(document)
    with open(document, encoding='utf-8') as file:
        for number, line in enumerate(file, 1):
            links = [os.path.join(folder, link) for link in LINK.findall(line) if '://' not in link]
            missing = [link for link in links if not os.path.exists(link)]
            if not missing and document.endswith('PROOFS.md'):
                missing = row_faults(line, links)
            yield ['%s:%d: not found: %s' % (document, number, name) for name in missing] if links else None


def main():
    documents = ['README.md', *sorted(glob.glob('docs/**/*.md', recursive=True)), 'examples/README.md']
    passed = failed = 0
    for document in documents:
        for faults in faults_of(document):
            if faults is None:
                continue
            passed, failed = (passed, failed + 1) if faults else (passed + 1, failed)
            for fault in faults:
                print(fault)
    print('%d passed, %d failed' % (passed, failed))
    return 1 if failed or not passed else 0


sys.exit(main())
