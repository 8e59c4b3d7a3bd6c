"""A decider for one-dimensional cellular automata, from Python.

    >>> from foursaspen import decide
    >>> decide(110).orphan
    '01010'

One rule, each with its least evidence:
    decide(rule, weights=None)          the report: six verdicts
    orphan(rule), number(rule)          the least word without a preimage; the Wolfram number
    certify(rule), brief(rule)          a certificate that anyone can check; a short one
    check(certificate)                  whether a certificate is accepted
    as_dict(rule)                       all that is known of it, in one row
    kept_sums(rule, range)              all sums of weights of words that it keeps
    flux(rule, weights), keeps(..)      whether it keeps a sum that you have in mind, and what shows it
    current(rule, weights)              what moves between neighbours of such a sum
    moved(rule, by)                     the configurations that it leaves as they are, or only moves
    degree(rule), blocks(rule)          how many preimages it has; a reversible rule as two layers of block permutations
    language(rule), same(rule, other)   which words have a preimage
    image(rule, word)                   one step: of a word, of a ring or of a configuration
    preimage(rule, tail), erase(rule)   what is mapped to a configuration; two words that may stand for each other
    preimages(rule, word), count_preimages(..)
                                        all words or rings with an image, and how many

Rules made of rules:
    Rule(..), Rule.of(function, ..)     a rule of a text, a number, a table or a function; Rule.totalistic, Rule.from_wolfram
    inverse, compose, lift, unlift      what undoes a rule; rules in turn; a reversible rule of pairs
    power(rule, steps)                  several steps of a rule as one
    trim, widen, shift, reflect, permute, least
    class_of, is_involution, order      its kin; whether, and after how many steps, it undoes itself
    is_linear(rule)                     whether it adds up multiples of letters
    undoes, commutes(rule, other)       laws between two rules
    symmetries(rule), time_reversal     which other names leave it as it is, or turn it into its inverse

Many rules:
    rules(property, states, width)      every rule of a shape that has a property, or several
    survey, sample, classes             how many rules have each property
    survey_over(executor, ..)           the same of a whole shape, over threads or machines
    verdicts, verdict_bytes             a byte for each rule, whose bits Bit names

To look at:
    picture(rule, show), windows(rule)  SVG, which a notebook shows
    atlas_rows(states, width)           the classes of a shape as values
    page(rule), atlas(states, width)    HTML pages; site(folder, states, width) writes an atlas with a page for each class
    to_dot(rule), to_networkx(rule)     the de Bruijn graph for other programs

    run(words)                          any command line of the program
    keep_freed_memory()                 for who decides many rules one by one

A rule is a Rule, a text, as '2:3:-1:t01110110', the number of an elementary rule, or an answer that has a rule. Answers are
frozen dataclasses; everything else is an exception of the class FoursaspenError. docs/PYTHON.md of the repository has examples
of all this. The work is done by a library that is proved; this package is not.
"""
from .atlases import AtlasRow, atlas, atlas_rows
from .bits import Bit, verdict_bytes, verdicts
from .block_layers import Blocks, blocks
from .commands import (brief, certify, check, classes, decide, erase, inverse, language, least, lift, number,
                       orphan, permute, preimage, reflect, run, same, sample, shift, survey, trim, unlift, widen)
from .degrees import Degree, Multipliers, degree
from .drawing import Picture
from .evidence import EvidenceError
from .exports import to_dot, to_networkx
from .faults import (FoursaspenError, LibraryMissingError, NotFitError, OutOfMemoryError, RefusedError, RuleError, TooLongError,
                     UsageError, WordsError)
from .images import Image, image
from .laws import Change, commutes, compose, power, symmetries, time_reversal, undoes
from .library import Outcome, keep_freed_memory
from .lists import Listing, Rules, rules
from .moves import Moved, moved
from .operands import Weights
from .pages import Page, page
from .pictures import picture, windows
from .preimages import count_preimages, preimages
from .relations import RuleClass, as_dict, class_of, is_involution, is_linear, order
from .report import (Answer, Certificate, ClassSummary, Closing, Gap, Inverse, Language, Pair, Preimage, Report, Same,
                     Split, Summary, Tail, Verdicts, Window)
from .rule_values import Rule, RuleLike, Word
from .sites import site
from .sums import Keeps, KeptSums, current, flux, keeps, kept_sums
from .surveys import Progress, survey_over

__version__ = "3"
__all__ = [
    "Answer", "AtlasRow", "Bit", "Blocks", "Certificate", "Change", "ClassSummary", "Closing", "Degree", "EvidenceError",
    "FoursaspenError", "Gap", "Image", "Inverse", "Keeps", "KeptSums", "Language", "LibraryMissingError", "Listing", "Moved",
    "Multipliers", "NotFitError", "OutOfMemoryError", "Outcome", "Page", "Pair", "Picture", "Preimage", "Progress",
    "RefusedError", "Report", "Rule", "RuleClass", "RuleError", "RuleLike", "Rules", "Same", "Split", "Summary", "Tail",
    "TooLongError", "UsageError", "Verdicts", "Weights", "Window", "Word", "WordsError", "as_dict", "atlas", "atlas_rows",
    "blocks", "brief", "certify", "check", "class_of", "classes", "commutes", "compose", "count_preimages", "current", "decide",
    "degree", "erase", "flux", "image", "inverse", "is_involution", "is_linear", "keep_freed_memory", "keeps", "kept_sums",
    "language", "least", "lift", "moved", "number", "order", "orphan", "page", "permute", "picture", "power", "preimage",
    "preimages", "reflect", "rules", "run", "same", "sample", "shift", "site", "survey", "survey_over", "symmetries", "time_reversal",
    "to_dot", "to_networkx", "trim", "undoes", "unlift", "verdict_bytes", "verdicts", "widen", "windows",
]


def __dir__() -> list[str]:
    """The names that are meant for callers."""
    return list(__all__)
