#!/usr/bin/env python3
"""Brings the names of definitions and lemmas to the spelling of the Rattle of November 2026: words in snake case.

usage: python3 tools/port_names.py        at the top of the repository, once, right after the kit's port.py

It goes by whole words, in .rt, .antt, .edit and .md files. Functions of src/, exported C names, strings, inputs and outputs keep their names.
Eight lemmas would then have the name of a definition, so they get '_lem' first, in the files where they stand.
"""

import os
import re

# The definitions in camel case, and two old words of the library in the names of lemmas.
NAMES = """
allLeaves alwaysMixed answerNumber anyFace anyName areMet atDepth atPoint axisFits axisHolds blackThenFaces blackThenGray bothAcross bothOf bothWith
boundedOf boundsOver boundsWord buildBy buildOf buildWith buildWithRow11 builtMap byNumber checkOf checkRecords childOf clampOf comparisonBy
comparisonOf complementOf cornerBytes cornerOf cubeAround cubeAt decimalOf digitsOf edgeState eitherWith elevenRows entryBy entryWith faceBounds
faceGood faceHolds faceKind faceOf faceState faultOf firstIn firstPast firstUnmet firstWords foundOf grayMap grayThenWhite greatestFactor greatestOf
grownAt hasFace hasOperands headerFault headerOf headerSize holdsAt holdsPoint inLimits inPlace inSolid isAcross isConstant isDone isFace isGray isIn
isKnown isListed isLogical isMet isOut isSame isSmall isStated isVersion isWorked joinedBy judgedOf keptOf kidLeaves kindIn lastSort leafAt leafBy
leafBytes leafGood leafHolding leafIn leafOf leastFactor leastOf leavesBelow leavesBytes leavesFault leavesFrom leavesIn leavesOf lengthFails
lengthGood lesserOf levelGood limitRows lookupOf lowAt mapBy mapOf mapOver mapVersion marksOne mayRefuse meaningOf mentionedTwice nextOne nthCube
nthLeaf nthPlace offsetAt offsetFrom oldMap onAxis onFirst onRead onRow openOf operandOf orderedOf otherwiseOf outAtZero outcomeByNumber overNumber
overRoot overRootOf overRootWith ownWord pairRefusal passedPoint passedRoot pastEnd pastFrom pastInTree placeAfter placeAt placeBy placeGood
placeOrFirst pointCube pointReply reachedOf readAt readFrom readWith recordBy recordIn recordsOf refineOf refinedLeaves refinedMap refinedOf
refinedRows refusalOf renameAll replacedAt rootCube rootOf rowWith runBounds runStates secondIn shorterSolid signedAt signedBytes signedText sizesFit
solidBefore solidOf solidState sortOf sortsBefore sortsOf stateBefore stateBy stateIn stateOver stateWith stateWord stepMap stepRecords stepRecordsBy
stepRoot stepSheet stepSheetOf stepsTo stopOf storedOf strictBytes strictMap strictRecords strictRows strictSheet strictWall tapeAfter tapeOne
twiceRecords twiceSheet twinAfter twinBy twinIn unsignedAt usesIn wideSum withEnd zoneBuildBefore zoneBuildOf zoneCheckOf zoneLookupOf zoneOpenOf
zoneOutcome zoneRefineOf
"""

PARTS = {"leZ-above": "le_z-above", "leZ-false": "le_z-false", "leZ-true": "le_z-true", "ltZ-false": "lt_z-false", "ltZ-true": "lt_z-true"}

# A lemma with the name that a definition gets, and the folders or files of proofs in which it stands.
LEMMAS = {
    "first_past": ["crates/colour/proofs/FirstPast.antt"],
    "in_place": ["crates/tape/proofs/Worked.antt"],
    "is_same": ["crates/colour/proofs/Says.antt", "crates/colour/proofs/Turned.antt", "crates/colour/proofs/Otherwise.antt"],
    "leaves_in": ["crates/zonemap/proofs/Trip.antt"],
    "on_read": ["crates/sheet/proofs/Good.antt", "crates/demands/proofs/EqualRecords.antt"],
    "over_root": ["crates/building/proofs/Outcomes.antt", "crates/building/proofs/building/over_root/Proof.antt"],
    "past_end": ["crates/replacing/proofs/Places.antt"],
    "place_after": ["crates/replacing/proofs/Stepping.antt"],
}


def word(name):
    return re.compile(r"(?<![\w'.-])" + re.escape(name) + r"(?![\w'-])")


def snake(name):
    return re.sub(r"(?<=[a-z0-9])[A-Z]+", lambda m: "_" + m[0].lower(), name)


def files(root):
    for folder, dirs, found in os.walk(root):
        dirs[:] = sorted(d for d in dirs if d not in ("out", "target", ".git"))
        for f in sorted(found):
            yield os.path.join(folder, f)


def turn(path, pattern, to):
    with open(path, encoding="utf-8") as f:
        text = f.read()
    turned = pattern.sub(to, text)
    if turned != text:
        with open(path, "w", encoding="utf-8") as f:
            f.write(turned)


def main():
    for name, places in LEMMAS.items():
        for p in places:
            if os.path.exists(p):
                # An import of a function's generated module is a path, and stays.
                turn(p, word(name), name + "_lem")
    to = {n: snake(n) for n in NAMES.split()} | PARTS
    pattern = re.compile(r"(?<![\w'-])(" + "|".join(re.escape(n) for n in sorted(to, key=len, reverse=True)) + r")(?![\w'-])")
    for p in files("."):
        if p.endswith((".rt", ".antt", ".edit", ".md")) and os.path.basename(p) != "PORT.md":
            turn(p, pattern, lambda m: to[m[1]])


main()
