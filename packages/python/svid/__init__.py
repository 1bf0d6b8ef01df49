"""Checks SPIFFE JWT-SVIDs, once each: a validator that remembers which tokens were used.

::

    import svid

    validator = svid.Validator(audiences=["ledger"], bundles="/etc/svid/bundles")
    try:
        print(validator.check(token).spiffe_id)
    except svid.Refused as why:
        print("refused:", why)

`Validator` is the whole of it for one process, and `Validator(state=..)` keeps its record over
restarts. Several processes share a store (`Validator(mode="strict", store=..)`), tell each other by
messages, or have the sidecar svidd in front of them.
`Refused` has a subclass for each reason to refuse a token. `svid.asgi` and `svid.wsgi`
are middlewares for web services, and `svid.testing` is for your tests.
"""

from __future__ import annotations

from ._allow import allows
from ._bundles import Bundle, Bundles, from_workload_api
from ._journal import Journal
from ._signatures import Verifies
from ._validator import UNLIMITED, Validator
from .errors import (
    BadBundles,
    BadMessages,
    Closed,
    Damaged,
    Error,
    Forked,
    Gone,
    Held,
    Jump,
    NotAllowed,
    OtherFormat,
    Refused,
    TooFar,
    Unavailable,
)

# lists:begin imports (written by tools/lists)
from .errors import (  # the refusals
    Alg,
    Aud,
    BadSignature,
    Crit,
    Exp,
    Expired,
    HeaderNotObject,
    HeaderSpelling,
    Jti,
    Kid,
    Nbf,
    NoKey,
    NotAudience,
    NotThreeParts,
    NotYet,
    PayloadNotObject,
    PayloadSpelling,
    Replayed,
    SignatureSpelling,
    Sub,
    TooLong,
    TooLongLived,
    Typ,
    UnknownDomain,
    Withdrawn,
)

# lists:end
from .records import Accepted, Report, Use
from .sources import Endpoint, WorkloadApi
from .stores import WITHDRAWN, Claim, Found, Store, TellingStore

__all__ = [
    "Accepted",
    "BadBundles",
    "BadMessages",
    "Bundle",
    "Bundles",
    "Claim",
    "Closed",
    "Damaged",
    "Endpoint",
    "Error",
    "Forked",
    "Found",
    "Gone",
    "Held",
    "Journal",
    "Jump",
    "NotAllowed",
    "OtherFormat",
    "Refused",
    "Report",
    "Store",
    "TellingStore",
    "TooFar",
    "UNLIMITED",
    "Unavailable",
    "Use",
    "Validator",
    "Verifies",
    "WITHDRAWN",
    "WorkloadApi",
    "allows",
    "from_workload_api",
]
# lists:begin exports (written by tools/lists)
__all__ += [
    "Alg",
    "Aud",
    "BadSignature",
    "Crit",
    "Exp",
    "Expired",
    "HeaderNotObject",
    "HeaderSpelling",
    "Jti",
    "Kid",
    "Nbf",
    "NoKey",
    "NotAudience",
    "NotThreeParts",
    "NotYet",
    "PayloadNotObject",
    "PayloadSpelling",
    "Replayed",
    "SignatureSpelling",
    "Sub",
    "TooLong",
    "TooLongLived",
    "Typ",
    "UnknownDomain",
    "Withdrawn",
]
# lists:end
