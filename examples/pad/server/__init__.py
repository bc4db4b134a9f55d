"""The server of the pad: one Document for each person, and a page for each tab of theirs.

    delta       what an edit changes of a text, and what becomes of two deltas that crossed
    changes     which characters a call of the library changed, told by their names
    anchors     where the cursor of another person stands in this person's text
    history     what was done, as entries to undo and redo
    past        the text at an earlier moment
    person      one person's copy of the text, with all of these
    pad         all people, the frames between them, and the folder where they are kept
    tab         one tab in a browser: its messages, and its edits put in step with the person's text
    web         the page and its WebSocket, by aiohttp
"""
