"""Macros of a made package."""

OPTIONS = ["-b", "-a"]

def library(name, srcs, deps = [], *, suffix = "_lib", **others):
    native.cc_library(name = name + suffix, srcs = srcs, deps = deps, **others)
    native.alias(name = name, actual = name + suffix)

def files(*names, **tags):
    for at, name in enumerate(names):
        native.filegroup(name = name, tags = ["%d" % at] + sorted(["%s=%s" % (tag, tags[tag]) for tag in tags]))

def unused():
    pass

tools = struct(many = files, options = OPTIONS)
