"""The tests.

- `gate/`: the scripts of the gate, which run the built programs.
- `tools/`: scripts that run by hand, or on sources and documents.
- `support/`: modules that several scripts share. No script imports another script.
- `run.py`: runs the scripts of the gate.
- `must-fail/`, `equivalent/`, `captures/`, `transcripts/`: data.
"""
