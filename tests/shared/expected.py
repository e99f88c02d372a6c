"""Something held to what it should be."""


class Different(SystemExit):
    """What differs, and from what. A script ends with it where nothing catches it."""


def expect(what, got, wanted):
    if got != wanted:
        raise Different(f'{what}: {str(got)[:2000]}, and not {str(wanted)[:2000]}')
