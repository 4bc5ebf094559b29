"""What the tests share; each script takes what it needs of it by one line."""
from tests.lib import audit_model, ledgers, loads, lossy, packets, progress, rows, trying
from tests.lib.ledgers import Lane, Run, text, worded
from tests.lib.metric_texts import LEDGER_METRICS, SPOOL_METRICS, text_of
from tests.lib.model import Fault, Replay, answers, is_right_status, is_signed, read
from tests.lib.packets import (A_CLASS, ACCOUNTING_REQUEST, ACCOUNTING_RESPONSE, ACCT_SESSION_ID, ACCT_STATUS_TYPE, BOB, CLASS, FROM_NAS,
                               HOME_SECRET, MESSAGE_AUTHENTICATOR, NAS_SECRET, PROXY_STATE, SESSION, START, STATUS_SERVER, USER_NAME, WORDS,
                               ZEROS, answer, answered, attribute, classes, mark, of_lanes, of_nas, of_services, packet, reply, request,
                               request_of_nas, signed, states_of, status, turned, user_name)
from tests.lib.proxies import NEW_LANE, NOTHING_LEFT, SECRET, Home, Nas, Proxy, Service, Stage, heed_signals, pairs_of
from tests.lib.starting import MOST_ALLOCATIONS, NOBODY, TOP, Refuser, Server, built, configuration, configured, environment, started
from tests.lib.trying import (TRIES, LeftOut, Trial, best, conclude, hope, is_asked, need, run_trial, try_each, try_in_folders,
                              try_in_namespace, try_named)
from tests.lib.waiting import BUFFERS, HERE, PATIENCE, awaited, bound, buffers_of, flooded, free_port, free_ports, idle_until_end, is_so, until
