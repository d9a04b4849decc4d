"""Commands on images and packets: judging, counting pieces, writing them, and the refusals' numbers."""

from driver import Kind, Operation
from lines import answer_text, fields_text, flag_text, hex_text
from words import FORMATS


def judge(bench, form, image):
    return judged(bench.ask(Operation.JUDGE, bytes([form]) + image))


def judged(response):
    """What an image is judged to be: the answer, and of a frame its fields, flag and number."""
    answer = response.answer()
    fields, flag, number = None, None, None
    if answer.kind != Kind.REFUSED:
        fields, flag, number = response.take(6), response.number(1), response.number(1)
    response.end()
    return answer, fields, flag, number


def write_piece(bench, fields, packet, k, room):
    """Piece k of a packet: the answer, and the output of so many bytes."""
    arguments = fields + k.to_bytes(2, "big") + bytes([room]) + packet
    response = bench.ask(Operation.PIECE, arguments)
    answer, output = response.answer(), response.take(room)
    response.end()
    return answer, output


class Images:
    """The commands; each returns the text that it shows."""

    def __init__(self, bench):
        self.bench = bench

    def commands(self):
        return {"judge": self.judge, "count": self.count, "piece": self.piece, "number": self.number}

    def judge(self, words):
        form, image = words.format(), words.bytes()
        answer, fields, flag, number = judge(self.bench, form, image)
        shown = f"{FORMATS[form]}{hex_text(image)}:"
        if answer.kind == Kind.REFUSED:
            return shown + answer_text(answer) + "\n"
        data = hex_text(image[answer.number:])
        return f"{shown}{fields_text(fields)}{flag_text(flag)} number {number} bytes{data}\n"

    def count(self, words):
        form, size = words.format(), words.number("size", 8)
        answer = self.bench.ask(Operation.COUNT, bytes([form]) + size.to_bytes(8, "big")).only_answer()
        return f"{FORMATS[form]} {size} bytes:{answer_text(answer, 'pieces')}\n"

    def piece(self, words):
        k, room, fields, packet = words.number("piece", 2), words.room(1), words.fields(), words.bytes()
        answer, output = write_piece(self.bench, fields, packet, k, room)
        return f"piece {k} of {len(packet)}:{answer_text(answer, 'length')} output{hex_text(output)}\n"

    def number(self, words):
        number, name = words.number("number"), words.text("name")
        answer = self.bench.ask(Operation.NUMBER, bytes([number])).only_answer()
        return f"{name} {answer.number}\n" if answer.kind == Kind.REFUSED else f"{name}{answer_text(answer)}\n"
