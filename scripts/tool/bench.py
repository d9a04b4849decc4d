"""What a script works on: one program `calls`, or two, one for each front of receiving."""

from driver import Driver, Failure, Operation


class Bench:
    """The programs under way. With two, the second receives over a lent table."""

    def __init__(self, command, seconds, root):
        self.command, self.seconds, self.root = command, seconds, root
        self.drivers = []
        self.start()

    def start(self):
        self.drivers.append(Driver(self.command, self.seconds))

    def calls(self):
        return sum(driver.calls for driver in self.drivers)

    def ask(self, operation, arguments=b""):
        """Asks what no front has a part in: of the first program alone."""
        return self.drivers[0].ask(operation, arguments)

    def ask_each(self, operation, arguments=b""):
        """Asks every program the same, and returns the responses."""
        return [driver.ask(operation, arguments) for driver in self.drivers]

    def settle(self, operation, arguments, value=0):
        """Sets something in every program; the answer is always that value."""
        for response in self.ask_each(operation, arguments):
            response.settled(value)
            response.end()

    def set_fronts(self):
        """Has the first program receive by the station, the second over a table. A new station forgets it."""
        for front, driver in enumerate(self.drivers):
            response = driver.ask(Operation.FRONT, bytes([front]))
            response.settled()
            response.end()

    def read_file(self, path):
        try:
            return (self.root / path).read_bytes()
        except OSError as error:
            raise Failure(str(error)) from error

    def finish(self):
        for driver in self.drivers:
            driver.finish()

    def stop(self):
        for driver in self.drivers:
            driver.stop()
