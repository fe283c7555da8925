"""Both pages in headless Chromium, as watchers and a child use them, and a picture of each.

  python3 -m pages.chromium FOLDER      run it in tests/; the pictures go to FOLDER as form.png and board.png
"""
import os
import sys

from selenium import webdriver
from selenium.webdriver.chrome.service import Service
from selenium.webdriver.common.by import By
from selenium.webdriver.common.keys import Keys

from . import posts
from .server import GIRL, fail, same, server, until

CHINESE = "\u6d77\u6d6a\u8d8a\u8fc7\u4e86\u5824\u575d\uff1b\u7136\u540e\u6d77\u6c34\u9000\u5f97\u5f88\u8fdc\u3002"
# every sign that could be taken for markup or for an end
PATTERN = ";\"'<b>bold</b>&amp;\\ </p><script>x()</script> " + CHINESE + "\n"


def nine_parts(here):
    """Such signs to the last byte of nine parts; a character of two bytes may leave one free at a part's end, so the station is asked."""
    text = PATTERN * 20
    while "refused" in here.post(text, "/count")[1]:
        text = text[:-1]
    return text + "." * here.post(text, "/count")[1]["left"]


def browser(width, height):
    words = webdriver.ChromeOptions()
    for word in ("--headless=new", "--no-sandbox", "--disable-gpu", "--disable-dev-shm-usage", "--hide-scrollbars", "--lang=en",
                 "--window-size=%d,%d" % (width, height)):
        words.add_argument(word)
    words.binary_location = "/usr/bin/chromium"
    return webdriver.Chrome(service=Service("/usr/bin/chromedriver"), options=words)


class Page:
    def __init__(self, window, url):
        self.window = window
        window.get(url)

    def at(self, name):
        return self.window.find_element(By.ID, name)

    def read(self, name):
        return self.window.execute_script("return document.getElementById(arguments[0]).textContent", name)

    def picture(self, path):
        if not self.window.save_screenshot(path):
            fail("no picture %s" % path)


class Form(Page):
    def type(self, text):
        """Key by key; a text of many characters is pasted, which the page sees as one input."""
        if len(text) < 200:
            self.at("text").send_keys(text)
        else:
            self.window.execute_script("const t = document.getElementById('text'); t.value = arguments[0]; t.dispatchEvent(new Event('input'))", text)

    def text(self):
        return self.at("text").get_property("value")

    def send(self):
        self.at("send").click()

    def sent(self, due):
        until("the word that it is on air", lambda: self.read("sent") == due)
        same("the form after sending", self.text(), "")

    def not_sent(self, text, due):
        until("the reason %r" % due, lambda: self.read("reason") == due)
        same("the text beside the reason", self.text(), text)
        same("the reason is seen", self.at("reason").is_displayed(), True)
        self.at("text").clear()


class Board(Page):
    def stories(self):
        return self.window.execute_script("return [...document.querySelectorAll('.story p')].map((p) => p.textContent)")

    def markup(self):
        return self.window.execute_script("return document.querySelectorAll('#stories b, #stories script, #stories p > *').length")

    def shows(self, due):
        until("on the board: %r" % (due[0][:40],), lambda: self.stories() == due)
        same("markup on the board", self.markup(), 0)


def tell(form, board, nine):
    """The girl's sentence, then nine parts; the form counts meanwhile."""
    form.type(GIRL)
    until("the room", lambda: form.read("room").startswith("1 of 9 parts; room for 1277 more letters"))
    form.send()
    form.sent("On air in 1 part.")
    board.shows([GIRL])
    form.type(nine)
    until("no room", lambda: form.read("room").startswith("9 of 9 parts; room for 0 more letters"))
    form.at("text").send_keys(Keys.CONTROL, Keys.ENTER)
    form.sent("On air in 9 parts.")
    board.shows([nine, GIRL])


def refuse(form, here, nine):
    """Ten parts, and a character outside the set: the text stays, and nothing goes on air."""
    size = here.size()
    form.type(nine + "x")
    until("the count of ten parts", lambda: form.read("room") == "refused, 31: the text needs more than nine parts")
    form.send()
    form.not_sent(nine + "x", "Not sent: refused, 31: the text needs more than nine parts")
    form.type("gro\u00df")
    form.send()
    form.not_sent("gro\u00df", "Not sent: line 1, column 4: \u00df (U+00DF LATIN SMALL LETTER SHARP S) is not in GB/T 2312; nothing was sent")
    same("air bytes", here.size(), size)


def together(form, other, board, nine):
    """Two watchers at once, one of them in Chinese."""
    form.type(CHINESE)
    other.type("The pier is dry; the boats lie on the sand.")
    form.send()
    other.send()
    form.sent("On air in 1 part.")
    other.sent("On air in 1 part.")
    until("both stories", lambda: sorted(board.stories()[:2]) == sorted([CHINESE, "The pier is dry; the boats lie on the sand."]))
    same("all stories", sorted(board.stories()[2:]), sorted([nine, GIRL]))


def unlock(window):
    """A station with a key: the form asks for it, and sends nothing without it."""
    with posts.guarded() as here:
        form = Form(window, here.form)
        until("the key's field", lambda: form.at("key").is_displayed())
        form.type(GIRL)
        form.send()
        until("the reason", lambda: form.read("reason") == "Not sent: the key is missing or wrong")
        form.at("key").send_keys(posts.KEY)
        form.send()
        form.sent("On air in 1 part.")
        same("on the board", [s["text"] for s in here.stories(1)], [GIRL])


def late(window, here, board):
    """A board that is opened later, on a phone, shows the same and is no wider than its window."""
    phone = Board(window, here.board)
    phone.shows(board.stories())
    same("a line that leaves the screen", window.execute_script("return document.documentElement.scrollWidth <= window.innerWidth"), True)


def pictures(folder):
    """The form with a text that is not sent yet, the board as a child sees it."""
    with server() as here:
        window, wide = browser(800, 720), browser(1280, 800)
        try:
            board, form = Board(wide, here.board), Form(window, here.form)
            for text in ("The pier is dry; the boats lie on the sand.", CHINESE, GIRL):
                form.type(text)
                form.send()
                form.sent("On air in 1 part.")
            until("three stories", lambda: board.stories()[:1] == [GIRL])
            form.type("A second wave stands behind the island; it is higher than the first. " + CHINESE)
            until("the room", lambda: form.read("room").startswith("1 of 9 parts; room for 1238 "))
            form.picture(os.path.join(folder, "form.png"))
            board.picture(os.path.join(folder, "board.png"))
        finally:
            window.quit()
            wide.quit()


def main(folder):
    with server() as here:
        windows = [browser(800, 900), browser(1280, 800), browser(500, 900)]
        try:
            form, board, other = Form(windows[0], here.form), Board(windows[1], here.board), Form(windows[2], here.form)
            nine = nine_parts(here)
            until("the board's connection", lambda: board.read("state") == "listening")
            tell(form, board, nine)
            refuse(form, here, nine)
            posts.cut_off(here)
            board.shows([nine, GIRL])
            together(form, other, board, nine)
            late(windows[2], here, board)
            unlock(windows[0])
        finally:
            for window in windows:
                window.quit()
    pictures(folder)
    print("pier: both pages in Chromium: one part, nine parts, ten parts, a character outside the set, a cut-off post, two watchers, a phone, a key")


if __name__ == "__main__":
    main(sys.argv[1])
