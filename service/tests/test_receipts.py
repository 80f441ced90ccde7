"""Receipts that are given unasked: for what, how many in one, and not more than the bucket has leaves for."""

import asyncio
import unittest

import cases
from depot_service import messages as m
from depot_service.leaves import Bucket
from depot_service.node import Refused
from depot_service.receipts import Giver


def update(number, *keys, writer=2):
    """An accepted update of keys."""
    return m.UpdateKeys(cases.id_of(number), writer, number, number + 1, keys)


class Node(cases.MemoryNode):
    """A node that gives receipts, but for one id, whose value it doesn't hold."""

    def __init__(self):
        super().__init__()
        self.receipts, self.lacked = [], None

    async def receipt(self, ids, urgency=None):
        """Remembers a receipt."""
        if self.lacked in ids:
            raise Refused(m.NotDone("not-held", "a value isn't held"))
        self.receipts.append(list(ids))
        return m.Put(bytes(32), len(self.receipts), 1)


def given(test):
    """A test with a node and its giver."""

    def run(self):
        async def work():
            self.node = Node()
            self.giver = Giver(self.node, 1, Bucket(0.0, 3))
            await test(self)

        asyncio.run(asyncio.wait_for(work(), 120))

    return run


class Receipts(unittest.TestCase):
    """What a Giver does."""

    @given
    async def test_updates_of_others_get_one_each(self):
        receipt = b"receipt:" + cases.id_of(3)
        self.node.listed = [update(1, b"k"), update(2, b"k", writer=1), update(3, b"a", b"b"), update(4, receipt, writer=3), update(5, receipt, b"c"),
                            update(6, receipt, writer=1)]
        await self.giver.look()
        self.assertTrue(await self.giver.give())
        self.assertFalse(await self.giver.give())
        self.assertEqual(self.node.receipts, [[cases.id_of(1), cases.id_of(5)]])

    @given
    async def test_sixteen_in_one_and_no_more_leaves_than_there_are(self):
        self.node.listed = [update(it, b"k") for it in range(100)]
        await self.giver.look()
        self.assertEqual([await self.giver.give() for _ in range(4)], [True, True, True, False])
        self.assertEqual([len(it) for it in self.node.receipts], [16, 16, 16])
        self.assertEqual(self.node.receipts[0], [cases.id_of(it) for it in range(16)])

    @given
    async def test_a_value_that_is_lacking_holds_up_nothing_else(self):
        self.node.listed, self.node.lacked = [update(it, b"k") for it in range(20)], cases.id_of(0)
        await self.giver.look()
        self.assertFalse(await self.giver.give())
        self.assertTrue(await self.giver.give())
        self.assertEqual(self.node.receipts[0], [cases.id_of(it) for it in range(1, 17)])


if __name__ == "__main__":
    unittest.main()
