"""Ways to spoil a document, each aimed at one number of refusal.

A damage takes the document and answers whether it could be done. The aim is what the damage alone should give in most
documents; what a text really gives is for the oracle and the reader to say.
"""
from documents import Node, TRANSFORMATION

BAD_WHOLES = ["", " 1", "1 ", "+1", "-1", "-0", "1.0", "00000001", "1048577", "9999999", "10000000", "x", "1e3",
              "0x1", "1,", "1_0", "\u0661", "1\u00a0", "18446744073709551617", "4294967297", "one", "&", "<"]
BAD_EXPONENTS = ["", "31", "-31", "+1", "-", "--1", "100", "001", "-100", "1.0", " 1", "1 ", "e", "99", "-99"]
BAD_DECIMALS = ["", ".", ".5", "5.", "1.2.3", "1E46", "1.0E-45", "0E46", "1E005", "1E", "1e+", "1E 5", "1E5.0", "1E5E5", "E5",
                "1.E5", "1E--5", "1E1234567890123456", "nan", "inf", "+-1", "1,5", "+", "-",
                "0000000000000001", "1234567890123456", "12345678.12345678", " 1", "1 ", "-.5", "+5.", "0x10", "1.+2"]
BAD_LISTS = ["", "0,", ",0", "10", "0 ,1", "0;1", "00", "0,,1", "x", "0, 1", " 0", "1 ", "-0", "0.1", "\u0660"]
BAD_AXES = ["", "8,8", "8,8,8,8", "8, 8,8", "0,8,8", "8,0,8", "8,8,0", "2049,8,8", "8,2049,8", "8,8,4097", "8 8 8",
            ",8,8", "8,8,", "8,8,x", "00000008,8,8", "+8,8,8", "-8,8,8", "8.0,8,8"]
BAD_VERSIONS = ["", "1", "2.0", " 2", "2 ", "02", "two", "3", "22", "\u0662", "2\n"]
BAD_WORDS = ["", " ", "x", "SURFACE", "BRAIN_MODELS", "CIFTI_INDEX_TYPE_", "CIFTI_STRUCTURE_",
             "CIFTI_STRUCTURE_CORTEX_BOTH"]
STRAY_TEXTS = ["x", " .", "0", "\u00a0", "\ufeff", "&", "]]", "\u2003", "\x7f", "<"]
LIMITS = {"IndexOffset": ["1048577"], "IndexCount": ["0", "1048577"], "SurfaceNumberOfVertices": ["0", "1048577"],
          "NumberOfSeriesPoints": ["0", "1048577"], "SeriesExponent": ["31", "-31"], "MeterExponent": ["31", "-31"],
          "VolumeDimensions": ["0,65536,65536", "65536,0,65536", "65536,65536,0", "65537,65536,1", "1,65537,65536", "65536,1,65537"],
          "SeriesStart": ["1234567890.123456", "-0000000000000000", "1E46", "1E-46", "1.0E47", "1.0E-45"],
          "SeriesStep": ["1234567890.123456", "+0000000000000001", "0E46", "0.0E-45"]}
LISTED_LIMITS = {"VertexIndices": "1048576", "VoxelIndicesIJK": "65536"}
LENGTHS = [[], [1], [0, 1], [1, 0], [1048577, 1], [1, 1048577], [1, 1, 1, 1], [1, 1, 0], [1, 1, 1048577],
           [2 ** 64 - 1, 1], [1, 2 ** 40], [2 ** 32 + 1, 1], [1, 1, 2 ** 63], [1, 2, 3, 4, 5]]


def pick(rng, many):
    return rng.choice(many) if many else None


def version(rng, doc):
    choice = rng.randrange(4)
    if choice == 0:
        doc.root.name = rng.choice(["cifti", "CIFTI2", "CIFT", "Matrix", "a", "x:CIFTI", "_"])
    elif choice == 1:
        doc.root.drop("Version")
    else:
        doc.root.put("Version", rng.choice(BAD_VERSIONS))
    return True


def later_kind(rng, doc):
    rng.choice(doc.maps()).put("IndicesMapToDataType", "CIFTI_INDEX_TYPE_PARCELS")
    return True


def attribute_more(rng, doc):
    known = ["Version", "IndexOffset", "SeriesUnit", "MeterExponent", "SurfaceNumberOfVertices", "NumberOfSeriesPoints", "Extra",
             "xml:space", "indexcount", "SeriesStart", "SeriesStep", "SeriesExponent"]
    node, name = rng.choice(doc.root.all()), rng.choice(known)
    if node.get(name) is not None:
        return False
    node.attributes.insert(rng.randrange(len(node.attributes) + 1), [name, rng.choice(["1", "", "a b", "SECOND", "2"])])
    return True


def attribute_less(rng, doc):
    node = rng.choice([n for n in doc.root.all() if n.attributes])
    name = rng.choice(node.attributes)[0]
    if name == "Version":
        return False
    node.drop(name)
    return True


def attribute_renamed(rng, doc):
    node = rng.choice([n for n in doc.root.all() if n.attributes and n is not doc.root] or [None])
    if node:
        one = rng.choice(node.attributes)
        one[0] = rng.choice([one[0].lower(), one[0] + "s", one[0][:-1], "x:" + one[0]])
    return node is not None


def child_more(rng, doc):
    node = rng.choice(doc.root.all())
    name = rng.choice(["Extra", "MetaData", "Matrix", "MatrixIndicesMap", "NamedMap", "MD", "Name", "Value", "MapName", "Volume",
                       "VertexIndices", "VoxelIndicesIJK", "BrainModel", "matrix", "LabelTable", "Parcel", TRANSFORMATION])
    if (node.name, name) in (("Matrix", "MetaData"), ("MetaData", "MD"), ("NamedMap", "MetaData")) and not node.children(name):
        return False
    node.contents.insert(rng.randrange(len(node.contents) + 1), Node(name, (), ["1"] if rng.random() < 0.5 else []))
    return True


def child_less(rng, doc):
    node = rng.choice([n for n in doc.root.all() if n.children()])
    child = rng.choice(node.children())
    if child.name in ("MetaData", "MD", "NamedMap", "BrainModel"):
        return False
    node.contents.remove(child)
    return True


def child_twice(rng, doc):
    node = rng.choice([n for n in doc.root.all() if n.children()])
    child = rng.choice(node.children())
    if child.name in ("MD", "NamedMap", "BrainModel", "MatrixIndicesMap"):
        return False
    node.contents.insert(rng.randrange(len(node.contents) + 1), child)
    return True


def child_renamed(rng, doc):
    node = rng.choice([n for n in doc.root.all() if n is not doc.root])
    node.name = rng.choice([node.name.lower(), node.name + "s", node.name[:-1] or "a", "NodeIndices", "x:" + node.name, "_"])
    return True


def stray_text(rng, doc):
    node = rng.choice([n for n in doc.root.all() if n.words is None and n.name not in ("Name", "Value", "MapName")])
    node.contents.insert(rng.randrange(len(node.contents) + 1), rng.choice(STRAY_TEXTS))
    return True


def word(rng, doc):
    spots = [(n, a) for n in doc.root.all() for a in
             ("IndicesMapToDataType", "ModelType", "BrainStructure", "SeriesUnit") if n.get(a) is not None]
    node, name = rng.choice(spots)
    old = node.get(name)
    node.put(name, rng.choice([old.lower(), old + " ", " " + old, old[:-1], old + "S", "CIFTI_" + old] + BAD_WORDS))
    return True


def volume_gone(rng, doc):
    for one in doc.brains():
        if one.children("Volume") and one.all("VoxelIndicesIJK"):
            one.contents = [c for c in one.contents if c.name != "Volume"]
            return True
    return False


def models_gone(rng, doc):
    one = pick(rng, doc.brains())
    if one:
        one.contents = one.children("Volume")
    return one is not None


def number(rng, doc):
    bad = {"IndexOffset": BAD_WHOLES, "IndexCount": BAD_WHOLES + ["0"], "SurfaceNumberOfVertices": BAD_WHOLES + ["0"],
           "NumberOfSeriesPoints": BAD_WHOLES + ["0"], "VolumeDimensions": BAD_AXES, "AppliesToMatrixDimension": BAD_LISTS,
           "SeriesExponent": BAD_EXPONENTS, "MeterExponent": BAD_EXPONENTS, "SeriesStart": BAD_DECIMALS, "SeriesStep": BAD_DECIMALS}
    spots = [(n, a[0]) for n in doc.root.all() for a in n.attributes if a[0] in bad]
    node, name = rng.choice(spots)
    node.put(name, rng.choice(bad[name]))
    return True


def listed_number(rng, doc):
    node = pick(rng, doc.root.all("VertexIndices") + doc.root.all("VoxelIndicesIJK") + doc.root.all(TRANSFORMATION))
    if not node or not node.words:
        return False
    bad = BAD_DECIMALS if node.name == TRANSFORMATION else BAD_WHOLES + ["1048576" if node.name[1] == "e" else "65536"]
    bad = [b for b in bad if b.strip() == b and b != ""]
    node.words[rng.choice([0, -1, rng.randrange(len(node.words))])] = rng.choice(bad)
    return True


def limit(rng, doc):
    """A number that is just past its limit."""
    spots = {}
    for node in doc.root.all():
        for name in [a[0] for a in node.attributes if a[0] in LIMITS] + [node.name] * bool(node.words and node.name in LISTED_LIMITS):
            spots.setdefault(name, []).append(node)
    if not spots:
        return False
    name = rng.choice(sorted(spots))
    node = rng.choice(spots[name])
    if name in LIMITS:
        node.put(name, rng.choice(LIMITS[name]))
    else:
        node.words[rng.randrange(len(node.words))] = LISTED_LIMITS[name]
    return True


def sixteen(rng, doc):
    node = pick(rng, doc.root.all(TRANSFORMATION))
    if not node:
        return False
    choice = rng.randrange(5)
    if choice == 0:
        node.words.pop()
    elif choice == 1:
        node.words.append(rng.choice(["1", "0"]))
    elif choice == 2:
        node.words = []
    else:
        node.words[rng.randrange(12, 16)] = rng.choice(["2", "-1", "0.00000000000001", "1.00000000000001", "-1.0", "10",
                                                            "1E1", "1E-45", "10E-2"])
    return True


def dimension(rng, doc):
    one = rng.choice(doc.maps())
    one.put("AppliesToMatrixDimension", rng.choice(["0", "1", "2", "0,1", "1,0", "0,0", "0,1,2", "3", "9", "1,1", "2,1,0", "1,2", "0,1,0"]))
    return True


def length_off(rng, doc):
    at = rng.randrange(len(doc.lengths))
    doc.lengths[at] = max(1, min(1048576, doc.lengths[at] + rng.choice([-1, 1, 1, 7, -2, 1000000])))
    return True


def named_off(rng, doc):
    one = pick(rng, [m for m in doc.maps() if m.children("NamedMap")])
    if one:
        if rng.random() < 0.5:
            one.contents.remove(rng.choice(one.children("NamedMap")))
        else:
            one.contents.append(Node("NamedMap", (), [Node("MapName", (), ["more"])]))
    return one is not None


def one_model(rng, doc):
    return pick(rng, doc.root.all("BrainModel"))


def two_models(rng, doc):
    """Two models of one map and one type."""
    groups = []
    for one in doc.brains():
        models = one.children("BrainModel")
        groups += [[m for m in models if m.get("ModelType") == kind] for kind in sorted({str(m.get("ModelType")) for m in models})]
    groups = [g for g in groups if len(g) > 1]
    return rng.sample(rng.choice(groups), 2) if groups else (None, None)


def structure_twice(rng, doc):
    one, other = two_models(rng, doc)
    if one:
        other.put("BrainStructure", one.get("BrainStructure"))
    return one is not None


def list_off(rng, doc):
    model = one_model(rng, doc)
    if not model:
        return False
    words, choice = model.contents[0].words, rng.randrange(4)
    if choice == 0:
        del words[-rng.choice([1, 1, 2, 3]):]
    elif choice == 1:
        words += ["0"] * rng.choice([1, 1, 2, 3])
    elif choice == 2:
        del words[rng.randrange(len(words))]
    else:
        del words[:]
    return True


def offset_off(rng, doc):
    model = one_model(rng, doc)
    if model:
        old = int(model.get("IndexOffset"))
        model.put("IndexOffset", str(max(0, min(1048576, old + rng.choice([-1, 1, 1, 2, 1000, 1048576])))))
    return model is not None


def count_moved(rng, doc):
    """One model longer and another shorter, lists too: the sum is kept, an overlap hides a gap."""
    one, other = two_models(rng, doc)
    if not one or int(one.get("IndexCount")) < 1 or int(other.get("IndexCount")) < 2:
        return False
    step = len(one.contents[0].words) // int(one.get("IndexCount"))
    one.contents[0].words += other.contents[0].words[-step:]
    del other.contents[0].words[-step:]
    one.put("IndexCount", str(int(one.get("IndexCount")) + 1))
    other.put("IndexCount", str(int(other.get("IndexCount")) - 1))
    return True


def outside(rng, doc):
    model = one_model(rng, doc)
    if not model:
        return False
    words = model.contents[0].words
    if model.get("SurfaceNumberOfVertices"):
        most = int(model.get("SurfaceNumberOfVertices"))
        if most > 1048575:
            return False
        words[rng.choice([0, -1, rng.randrange(len(words))])] = str(rng.choice([most, most, 1048575]))
        return True
    axes = next(m for m in doc.brains() if model in m.contents).children("Volume")[0].get("VolumeDimensions").split(",")
    axis = rng.randrange(3)
    at = rng.choice([0, len(words) // 3 - 1, rng.randrange(len(words) // 3)])
    if int(axes[axis]) > 65535:
        return False
    words[3 * at + axis] = str(rng.choice([int(axes[axis]), int(axes[axis]), 65535]))
    return True


def twice(rng, doc):
    """A vertex twice in a model, or a voxel twice, near or far."""
    model = one_model(rng, doc)
    if not model:
        return False
    words = model.contents[0].words
    step = 1 if model.get("SurfaceNumberOfVertices") else 3
    count = len(words) // step
    if count < 2:
        return False
    one = rng.choice([0, rng.randrange(count - 1), count - 2])
    other = rng.choice([one + 1, count - 1])
    words[step * other:step * other + step] = words[step * one:step * one + step]
    return True


def voxel_in_two(rng, doc):
    """One voxel in two models: the structures differ, the place does not."""
    one, other = two_models(rng, doc)
    if not one or one.get("SurfaceNumberOfVertices"):
        return False
    target = other.contents[0].words
    target[-3:] = one.contents[0].words[rng.choice([0, 3 * rng.randrange(len(one.contents[0].words) // 3)]):][:3]
    return True


def deep(rng, doc):
    """A nest in the root or deeper: seventeen deep is no document, sixteen is only unknown."""
    node, depth = rng.choice([(doc.root, 1), (doc.root.children()[0], 2)])
    nest = rng.choice([16, 17, 17, 17, 18, 40]) - depth
    inner = None
    for _ in range(nest):
        inner = Node("a", (), [inner] if inner else [])
    node.contents.append(inner)
    return True


def attributes_many(rng, doc):
    node = rng.choice(doc.root.all())
    for at in range(rng.choice([16, 17, 17, 30]) - len(node.attributes)):
        node.attributes.append([f"a{at}", str(at)])
    return True


def name_long(rng, doc):
    node = rng.choice(doc.root.all())
    long = "n" * rng.choice([64, 65, 65, 66, 300])
    if rng.random() < 0.5:
        node.attributes.append([long, ""])
    else:
        node.contents.append(Node(long))
    return True


def attribute_twice(rng, doc):
    node = rng.choice([n for n in doc.root.all() if n.attributes])
    node.attributes.append(list(rng.choice(node.attributes)))
    return True


ON_DOCUMENTS = [(4, version), (5, later_kind), (6, attribute_more), (6, attribute_less), (6, attribute_renamed),
                (6, child_more), (6, child_less), (6, child_twice), (6, child_renamed), (6, stray_text), (6, word),
                (6, volume_gone), (6, models_gone), (7, number), (7, number), (7, listed_number), (7, limit),
                (7, limit), (7, sixteen), (8, dimension), (8, dimension), (9, length_off), (9, named_off),
                (10, structure_twice), (10, structure_twice), (10, structure_twice), (11, list_off), (11, list_off),
                (11, offset_off), (11, offset_off), (11, count_moved), (11, count_moved), (12, outside),
                (12, outside), (12, outside), (14, twice), (14, twice), (14, twice), (14, twice), (14, voxel_in_two),
                (14, voxel_in_two), (3, deep), (3, attributes_many), (3, name_long), (3, attribute_twice)]
