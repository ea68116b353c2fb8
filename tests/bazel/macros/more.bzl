"""More of them."""

def more(name, outs):
    native.genrule(name = name, outs = outs, cmd = "touch $(OUTS)")
