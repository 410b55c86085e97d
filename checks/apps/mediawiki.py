"""mediawiki.py URL FOLDER REQUESTS CLIENTS

Drives a wiki by HTTP: an administrator logs in, makes and changes pages, compares versions, moves, protects, blocks; then
CLIENTS at once read pages, histories, searches, styles and the API, until REQUESTS were made. With a FOLDER that is not
`-`, each page is written there as N.html, without what differs from run to run: tokens, times, numbers of requests. With
one client the pages of two runs can be compared.
"""
import http.cookiejar
import os
import re
import sys
import threading
import urllib.error
import urllib.parse
import urllib.request

VARYING = [
    (r'[0-9a-f]{32,}(%2B|\+)?(%5C|\\)*', 'TOKEN'),
    (r'"wgRequestId":"[^"]*"|reqid"?[:=]"?[0-9a-f]+', 'REQUEST'),
    (r'"wgBackendResponseTime":\d+', 'TIME'),
    (r'\b20\d\d-?\d\d-?\d\d[T ]?\d\d:?\d\d:?\d\dZ?', 'TIME'),
    (r'\b\d\d:\d\d(:\d\d)?(, \d+ \w+ 20\d\d)?', 'TIME'),
    (r'\b20\d{12}\b', 'TIME'),
    (r'<!--.*?-->', 'COMMENT'),
    (r'version=[0-9a-z]{5,}|"version":"[0-9a-z]+"', 'VERSION'),
    (r'\b\d+\.\d+ (seconds|MB)', 'MEASURED'),
    (r'"(cputime|walltime)":"[0-9.]+"|"timingprofile":\[[^]]*\]', 'MEASURED'),
]


class Client:
    def __init__(self, url, pages):
        self.url, self.pages = url, pages
        jar = http.cookiejar.CookieJar()
        self.opener = urllib.request.build_opener(urllib.request.HTTPCookieProcessor(jar))

    def ask(self, path, fields=None):
        data = None if fields is None else urllib.parse.urlencode(fields).encode()
        try:
            with self.opener.open(self.url + path, data, timeout=120) as reply:
                text = reply.read().decode('utf-8', 'replace')
        except urllib.error.HTTPError as error:
            text = f'{error.code} ' + error.read().decode('utf-8', 'replace')
        self.pages.add(path, text)
        return text

    def page(self, title, **query):
        return self.ask('/index.php?' + urllib.parse.urlencode({'title': title, **query}))

    def inputs(self, text):
        found = {}
        for tag in re.findall(r'<input[^>]*>', text):
            name = re.search(r'name=["\']([^"\']*)', tag)
            value = re.search(r'value=["\']([^"\']*)', tag)
            if name:
                found[name[1]] = value[1].replace('&quot;', '"').replace('&amp;', '&') if value else ''
        return found

    def log_in(self, user, password):
        form = self.inputs(self.page('Special:UserLogin'))
        self.ask('/index.php?title=Special:UserLogin', {
            'wpName': user, 'wpPassword': password, 'wploginattempt': 'Log in', 'authAction': 'login', 'force': '',
            'wpLoginToken': form.get('wpLoginToken', ''), 'title': 'Special:UserLogin'})

    def edit(self, title, text):
        form = self.inputs(self.page(title, action='edit'))
        fields = {name: value for name, value in form.items()
                  if name.startswith('wp') and name not in ('wpPreview', 'wpDiff', 'wpMinoredit')
                  or name in ('oldid', 'format', 'model', 'mode', 'parentRevId', 'editRevId')}
        fields.update({'wpTextbox1': text, 'wpSummary': 'changed', 'wpSave': 'Save'})
        self.ask('/index.php?' + urllib.parse.urlencode({'title': title, 'action': 'submit'}), fields)

    def api(self, **fields):
        token = re.search(r'"csrftoken":"([^"]*)"', self.ask('/api.php?action=query&meta=tokens&format=json'))
        token = token[1].replace('\\\\', '\\') if token else '+\\'
        self.ask('/api.php', {'format': 'json', 'token': token, **fields})


class Pages:
    def __init__(self, folder, most):
        self.folder, self.most = folder, most
        self.count = self.failed = 0
        self.lock = threading.Lock()

    def add(self, path, text):
        with self.lock:
            number = self.count
            self.count += 1
            self.failed += text[:4] in ('500 ', '502 ', '503 ', '504 ')
        if self.folder != '-':
            for pattern, name in VARYING:
                text = re.sub(pattern, name, text, flags=re.S)
            with open(os.path.join(self.folder, f'{number:04}.html'), 'w', encoding='utf-8') as out:
                out.write(f'{path}\n{text}\n')

    def is_done(self):
        return self.count >= self.most


def write_pages(client):
    client.log_in('Admin', 'wrong')
    client.log_in('Admin', 'Passw0rd.long.1')
    client.edit('Template:Box', '<div class="box">{{{1|}}} {{{2|none}}}</div>')
    for i in range(20):
        client.edit(f'Page {i}', f"'''Page {i}'''\n{{{{Box|x{i}|y}}}}\n== A ==\n" + 'lorem ipsum ' * (10 * i)
                    + f'\n* [[Page {i + 1}]]\n[[Category:Cat {i % 4}]]')
        client.page(f'Page {i}')
    for i in range(5):
        client.edit(f'Page {i}', f'changed {i} {{{{Box}}}} [[Category:Cat {i}]]')
        client.page(f'Page {i}', diff='prev', oldid='cur')
    client.edit('Template:Box', 'another box {{{1|}}}')
    client.edit('MediaWiki:Sitenotice', 'Notice of the site')
    client.api(action='move', **{'from': 'Page 18', 'to': 'Moved'})
    client.api(action='protect', title='Page 3', protections='edit=sysop')
    client.api(action='block', user='10.1.2.3', expiry='1 day')
    client.api(action='delete', title='Page 17')
    client.page('Special:Log')


READ = [
    '/index.php?title=Page_{0}', '/index.php?title=Page_{0}&action=history', '/index.php?title=Category:Cat_{1}',
    '/load.php?lang=en&modules=startup&only=scripts&raw=1&skin=vector', '/index.php?title=Page_{0}&uselang=de',
    '/load.php?lang=en&modules=skins.vector.styles.legacy&only=styles&skin=vector', '/index.php?title=Special:RecentChanges',
    '/api.php?action=parse&page=Page_{0}&format=json', '/index.php?title=Special:WhatLinksHere/Template:Box',
    '/index.php?title=Page_{0}&action=purge', '/index.php?title=Special:Search&search=lorem',
    '/api.php?action=query&meta=siteinfo&siprop=general|namespaces|statistics&format=json',
]


def read_pages(client, number):
    step = number
    while not client.pages.is_done():
        client.ask(READ[step % len(READ)].format(step % 17, step % 4))
        step += 1


def main():
    url, folder, most, clients = sys.argv[1], sys.argv[2], int(sys.argv[3]), int(sys.argv[4])
    pages = Pages(folder, most)
    write_pages(Client(url, pages))
    readers = [threading.Thread(target=read_pages, args=(Client(url, pages), 7 * number)) for number in range(clients)]
    for reader in readers:
        reader.start()
    for reader in readers:
        reader.join()
    print(f'{pages.count} requests, {pages.failed} failed')
    sys.exit(pages.failed > 0)


main()
