"""A step of a run with any number of losses: crashbpf says by the records so far which images are wanted, and in the end it prints the text
of cases. So the search for cases is that of crashbpf (docs/OUTPUT.md, 'Records of a program of yours').
"""
from commands.each import product
from commands.each.stream import images, inputs
from commands.shared.faults import Refusal


class AskedStep:
    """The step of a run by its records, which stand in the file `path`. What is `known` is what it has."""

    def __init__(self, program, given, known, path):
        self.program, self.given, self.known, self.path = program, given, known, path

    def asking(self, changes):
        """Returns the step with other options."""
        return self.of(self.given.asking(changes))

    def of(self, given):
        """Returns the step of other words, of the same log."""
        return AskedStep(self.program, given, self.known, self.path)

    def words(self):
        return [*self.given.of_search(), "--known", self.path]

    def wanted(self):
        """Returns the images that are wanted, each once."""
        export = product.Export(self.program, self.words())
        try:
            inputs(export.file)
            # (the server makes the bytes, by the log)
            found = [it._replace(records=None) for it in images(export.file, self.given.sectors()) if it.same is None]
            export.end_in_order()
        except Refusal as error:
            raise export.refusal(error) from None
        finally:
            export.close()
        return found

    def is_told(self, image):
        """Whether a record tells an image that was wanted, by now."""
        return self.known.telling(self.known.images.image(image.cut, image.choice.decode()), image.marks) is not None

    def text(self):
        """Returns the status and the text of cases by all records, and the notes."""
        status, text, said = product.asked(self.program, ["explore", *self.words()])
        if status not in (0, 1, 3):
            raise Refusal(f"crashbpf refuses the log {self.given.log}, its options or its records: {product.first_line(said)}")
        return status, text, product.notes_in(said)
