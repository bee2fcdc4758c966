"""Sells from one stock at several sites over HTTP, and keeps the seller's own records.

    shop = Shop([SiteClient("127.0.0.1:8001"), SiteClient("127.0.0.1:8002")], Records("sales.jsonl"))
    sale = shop.sell(2, within=1.0)         # Sale(site="127.0.0.1:8001", number=7, amount=2), or None: it is sold out
    shop.refund(sale, "sent back")          # 8, the number of the entry that issues the two rights again
    shop.records.totals()                   # Totals(sold=2, perhaps_sold=0, refunded=2, perhaps_refunded=0)

**Another site sells only what the one before did not.** A sale is tried at one site after another: first at all that hold
enough, by `take`, and then, if there is time, at one that waits for rights of the others, by `spend`. The next site is
tried if one was not reached, has closed, or refused. If a request got no answer, its client asks the same site again under
the same key, and then what the site answers counts, a refusal too (rights_http.py says what that leaves open). No other
site is tried, since it would not know the key. If no answer comes at last, `AnswerLost` is raised, and the records say
`perhaps sold`, with the site, the key and the command. Once that site is back, `SiteClient(site).ask(command, key=key)`
tells what became of it, or sells it then.

A seller that crashes after a site has sold, and before the record is written, knows nothing of that sale. `spent` of the
sites' statuses has the sum of all.

**A refund issues rights again.** A log has no entry for that, so the reason stands in the seller's records, on the disk
before the rights are issued. A refund is asked again under its key too, at the same site alone, since rights that are
issued twice are sold twice. If no answer comes at last, the records say `perhaps refunded`, with site, key and command.
"""

from __future__ import annotations

import json
import os
import threading
import time
from collections.abc import Callable, Sequence
from dataclasses import asdict, dataclass
from typing import Any, TypeVar

from rights_http import AnswerLost, CommandRefused, Queued, SiteClient, SiteUnreachable, Spent

# For so many seconds a site that was not reached comes last.
AWAY = 5.0
# Refusals after which another site may do it.
ELSEWHERE = ("Closed", "LogFull", "OutOfMemory", "QueueFull", "Short")

Result = TypeVar("Result")


@dataclass(frozen=True)
class Sale:
    """What was sold: the address of the site, the number of the entry in its log, and how many rights."""

    site: str
    number: int
    amount: int


@dataclass(frozen=True)
class Totals:
    """Rights by the records. What was perhaps sold or refunded got no answer."""

    sold: int
    perhaps_sold: int
    refunded: int
    perhaps_refunded: int


class Records:
    """What a seller did: a file with a line of JSON for each event, on the disk before the call returns."""

    def __init__(self, path: str) -> None:
        """Reads the records that the file has, and goes on behind them. One process at a time writes a file."""
        self._lock = threading.Lock()
        self._amounts: dict[str, int] = {}
        self._refunds: dict[tuple[str, int], int] = {}
        self._file = open(path, "a+", encoding="utf-8")
        self._file.seek(0)
        whole = 0
        for line in self._file:
            if line.endswith("\n"):
                whole += len(line.encode())
                self._count(json.loads(line))
        # The rest of a line whose writer crashed. Nothing was done after it.
        self._file.truncate(whole)

    def add(self, event: str, sale: Sale | None = None, amount: int = 0, **fields: Any) -> None:
        """Appends an event. `sale` is the one that it is about."""
        record = {"event": event, "time": int(time.time()), "amount": amount, "sale": sale and asdict(sale), **fields}
        with self._lock:
            self._file.write(json.dumps(record) + "\n")
            self._file.flush()
            os.fsync(self._file.fileno())
            self._count(record)

    def refundable(self, sale: Sale) -> int:
        """What is left of a sale: without what was refunded, or perhaps was."""
        with self._lock:
            return sale.amount - self._refunds.get((sale.site, sale.number), 0)

    def totals(self) -> Totals:
        with self._lock:
            amounts = self._amounts
            refunded = amounts.get("refunded", 0)
            open_refunds = amounts.get("refund begun", 0) - refunded - amounts.get("refund refused", 0)
            return Totals(amounts.get("sold", 0), amounts.get("perhaps sold", 0), refunded, open_refunds)

    def close(self) -> None:
        self._file.close()

    def _count(self, record: dict[str, Any]) -> None:
        event, amount, sale = record["event"], record["amount"], record["sale"]
        self._amounts[event] = self._amounts.get(event, 0) + amount
        sign = {"refund begun": 1, "refund refused": -1}.get(event, 0)
        if sign and sale is not None:
            key = (sale["site"], sale["number"])
            self._refunds[key] = self._refunds.get(key, 0) + sign * amount


class Shop:
    """Sells at several sites of one stock, for any number of threads."""

    def __init__(self, sites: Sequence[SiteClient], records: Records) -> None:
        """The first of the sites is the one that sells, as long as it is reached and holds enough."""
        if not sites:
            raise ValueError("a shop needs a site")
        self.sites, self.records = list(sites), records
        self._refunding = threading.Lock()
        # When each site was not reached last.
        self._missed: dict[SiteClient, float] = {}

    def sell(self, amount: int, *, within: float = 0.0) -> Sale | None:
        """Sells, at a site that holds enough, or else gets it from the others within so many seconds. None if there is
        not enough. Raises SiteUnreachable if no site was reached, and AnswerLost if it may have been sold."""
        sale = self._try_each(lambda site, key: taken(site, amount, key), "perhaps sold", None, amount)
        if sale is None and within > 0:
            sale = self._try_each(lambda site, key: spent(site, amount, within, key), "perhaps sold", None, amount)
        if sale is not None:
            self.records.add("sold", sale, sale.amount)
        return sale

    def refund(self, sale: Sale, reason: str, amount: int | None = None) -> int:
        """Issues again what is left of a sale, or this much of it. Returns the number of the entry that issues it. Raises
        ValueError if that was refunded before, or perhaps was, and AnswerLost if it is unknown whether it was issued."""
        with self._refunding:
            left = self.records.refundable(sale)
            count = left if amount is None else amount
            if not 0 < count <= left:
                raise ValueError(f"{count} of {sale} cannot be refunded: {left} are left of it")
            self.records.add("refund begun", sale, count, reason=reason)
        try:
            number = self._try_each(lambda site, key: issued(site, count, key), "perhaps refunded", sale, count)
        except (SiteUnreachable, CommandRefused):
            self.records.add("refund refused", sale, count)
            raise
        if number is None:
            self.records.add("refund refused", sale, count)
            raise SiteUnreachable("each site that was reached has closed, or refuses to issue")
        self.records.add("refunded", sale, count, site=number[0], number=number[1])
        return number[1]

    def _try_each(
        self, act: Callable[[SiteClient, str | None], Result | None], perhaps: str, sale: Sale | None, amount: int
    ) -> Result | None:
        """The result of the first site that has one, each under a key of its own. A site that was not reached, or refused,
        did nothing. Of one that did not answer, the records say `perhaps` what it did."""
        unreached: SiteUnreachable | None = None
        reached = False
        for site in self._in_order():
            key = site.fresh_key()
            try:
                result = act(site, key)
            except AnswerLost as lost:
                self.records.add(perhaps, sale, amount, site=site.address, key=key, command=lost.commands[0])
                raise
            except SiteUnreachable as cause:
                self._missed[site], unreached = time.monotonic(), cause
                continue
            except CommandRefused as refusal:
                if refusal.name not in ELSEWHERE:
                    raise
                result = None
            if result is not None:
                return result
            reached = True
        if unreached is not None and not reached:
            raise unreached
        return None

    def _in_order(self) -> list[SiteClient]:
        """The sites as they were given, but those last that were not reached a moment ago."""
        since = time.monotonic() - AWAY
        return sorted(self.sites, key=lambda site: self._missed.get(site, since) > since)


def issued(site: SiteClient, amount: int, key: str | None) -> tuple[str, int]:
    return site.address, site.issue(amount, key=key)


def taken(site: SiteClient, amount: int, key: str | None) -> Sale:
    return Sale(site.address, site.take(amount, key=key).number, amount)


def spent(site: SiteClient, amount: int, within: float, key: str | None) -> Sale | None:
    result = site.spend(amount, within=within, key=key)
    if isinstance(result, Queued):
        # The site has ended. Its last tick may have served it.
        raise AnswerLost("the site ended while the spend waited", [f"spend {amount} +0"], key)
    return Sale(site.address, result.number, amount) if isinstance(result, Spent) else None
