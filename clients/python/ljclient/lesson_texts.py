"""The texts of lessons and of their marking, in each language."""
from __future__ import annotations

from typing import Dict

TEXTS: Dict[str, Dict[str, str]] = {
    "en": {
        "step": "Step {at} of {count}",
        "help": "`.hint` helps, `.lesson` shows the step again, and `.answer ..` answers a question.",
        "answer": "Type `.answer NUMBER`.",
        "choose": "Type `.answer {choices}`.",
        "right": "That is right.",
        "done": "That is what you should see.",
        "end": "The lesson is done.",
        "not yet": "Not yet what the step expects: `.hint` helps.",
        "wrong": "`{answer}` is not right: look again, or type `.hint`.",
        "no answer": "`{answer}` is not an answer to this question.",
        "no question": "No question is asked here.",
        "first": "First do what the step asks for; then the question comes.",
        "marked": "{key}: right",
        "missing": "{key}: missing: {what}",
        "marked wrong": "{key}: the answer `{answer}` is wrong",
        "unanswered": "{key}: the question was not answered",
        "sum": "{right} of {count} steps are right",
    },
    "de": {
        "step": "Schritt {at} von {count}",
        "help": "`.hint` hilft, `.lesson` zeigt den Schritt noch einmal, und `.answer ..` beantwortet eine Frage.",
        "answer": "Sage `.answer ZAHL`.",
        "choose": "Sage `.answer {choices}`.",
        "right": "Das ist richtig.",
        "done": "Das war zu sehen.",
        "end": "Die Lektion ist zu Ende.",
        "not yet": "Noch nicht, was der Schritt erwartet: `.hint` hilft.",
        "wrong": "`{answer}` ist nicht richtig: sieh noch einmal hin, oder sage `.hint`.",
        "no answer": "`{answer}` ist keine Antwort auf diese Frage.",
        "no question": "Hier wird nichts gefragt.",
        "first": "Tu zuerst, was der Schritt sagt; dann wird gefragt.",
        "marked": "{key}: richtig",
        "missing": "{key}: fehlt: {what}",
        "marked wrong": "{key}: die Antwort `{answer}` ist falsch",
        "unanswered": "{key}: die Frage wurde nicht beantwortet",
        "sum": "{right} von {count} Schritten sind richtig",
    },
}


def said(language: str, name: str, **parts: object) -> str:
    """A text in a language, or in English if the language has none."""
    return TEXTS.get(language, TEXTS["en"])[name].format(**parts)
