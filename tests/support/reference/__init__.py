"""The reference implementation of the formats and rules, written from their descriptions in docs/ and the standards.

It shares no line with the command, and is written to be read, not for speed. The scripts in tests/gate/ compare the
two.

- The reference: `items`, `notation`, `messages`, `session`, `ends`, `linktest`, `explain`, `compare` and `reasons`; for
  captures `packets`, `tcp`, `midstream`, `unaudited` and `capture_audit`.
- Inputs: `random_messages`, `random_logs`, `conversations`, `two_ends`, `corruption`, `edge_cases`, `endpoint_inputs`,
  `endpoint_cases`, `full_endpoints` and `idle_links`. They contain no answers.
- `cases`: runs of the command with the answers of the reference.
"""
