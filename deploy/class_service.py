"""Serves the class page. It listens before it loads the page, which takes a busy machine a while: JupyterHub 5 ends if a service
of its own doesn't answer within some ten seconds."""
import asyncio
import importlib
import os
import urllib.parse

from tornado.httpserver import HTTPServer
from tornado.web import Application


async def main():
    at = urllib.parse.urlsplit(os.environ["JUPYTERHUB_SERVICE_URL"])
    application = Application(cookie_secret=os.urandom(32))
    HTTPServer(application).listen(at.port, at.hostname)
    page = await asyncio.to_thread(importlib.import_module, "class_page")
    application.add_handlers(".*", page.HANDLERS)
    await asyncio.Event().wait()


asyncio.run(main())
