"""A model of `ssidx gen`: the documents that it makes, what it prints of them, and the limit that they meet."""
MIB = 2**20
WORDS = [f"w{i}" for i in range(1000)]


def documents(docs, words, seed):
    """The words of each document. The state goes on from one to the next."""
    state = seed
    for _ in range(docs):
        document = []
        for _ in range(words):
            state = (1103515245 * state + 12345) % 2**31
            document.append(WORDS[state // 256 % 1000])
        yield document


def summary(docs, words, seed):
    terms, positions = set(), 0
    for document in documents(docs, words, seed):
        terms.update(document)
        positions += sum(range(1, len(document) + 1))
    return f"documents {docs}\nwords {docs * words}\nterms {len(terms)}\npositions {positions % 2**32}\n"


def limit(docs, words, seed):
    """What is told of the first limit that is met."""
    left = 64 * MIB
    for number, document in enumerate(documents(docs, words, seed), 1):
        # Each word has a space behind it.
        size = sum(map(len, document)) + len(document)
        if size > 8 * MIB <= left:
            return f"ssidx: limit: document {number} is over {8 * MIB} bytes\n"
        if size > left:
            return f"ssidx: limit: documents to {number} are over {64 * MIB} bytes\n"
        left -= size
    return None
