"""What takes the place of a program that was not found."""

def _missing_program(ctx):
    fail("there is no {name} on the PATH: name one by {name} = \"/absolute/path\" where the programs are taken, or by --@kinduzar//:{name}_program=LABEL".format(
        name = ctx.label.name,
    ))

missing_program = rule(
    implementation = _missing_program,
    doc = "Fails where it is needed, so that a workspace that never needs the program builds without it.",
)
