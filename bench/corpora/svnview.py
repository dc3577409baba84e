#!/usr/bin/env python3
"""What Subversion says of a repository, in the form of `svnfleet list`.

  svnview.py list REPO [REV]      one revision (HEAD by default)
  svnview.py changed REPO [N..]   every revision (or those given), as dumpmodel.py changed
"""
import subprocess, sys, os
import xml.etree.ElementTree as E
ENV = dict(os.environ, LC_ALL='C.UTF-8', TZ='UTC')


def url_of(repo):
    return repo if '://' in repo else 'file://' + os.path.abspath(repo)


def real_listing(repo, rev=None):
    url = url_of(repo)
    if rev is None:
        rev = int(subprocess.run(['svn', 'info', '--non-interactive', '--show-item', 'revision', url], stdout=subprocess.PIPE, check=True, env=ENV).stdout)
    at = '%s@%d' % (url, rev)
    i = E.fromstring(subprocess.run(['svn', 'info', '--xml', '--non-interactive', at], stdout=subprocess.PIPE, check=True, env=ENV).stdout)
    rows = [((), 'D', int(i.find('entry/commit').get('revision')), None)]
    x = E.fromstring(subprocess.run(['svn', 'ls', '-R', '--xml', '--non-interactive', at], stdout=subprocess.PIPE, check=True, env=ENV).stdout)
    for e in x.iter('entry'):
        p = tuple(e.find('name').text.encode().split(b'/'))
        c = int(e.find('commit').get('revision'))
        if e.get('kind') == 'dir':
            rows.append((p, 'D', c, None))
        else:
            rows.append((p, 'F', c, int(e.find('size').text)))
    rows.sort(key=lambda r: r[0])
    out = [b'revision %d' % rev]
    for p, k, c, s in rows:
        shown = b'/'.join(p) or b'/'
        out.append(b'D %d %s' % (c, shown) if k == 'D' else b'F %d %d %s' % (c, s, shown))
    return b'\n'.join(out) + b'\n'


if __name__ == '__main__':
    what, repo = sys.argv[1:3]
    if what == 'list':
        sys.stdout.buffer.write(real_listing(repo, int(sys.argv[3]) if len(sys.argv) > 3 else None))
    else:
        head = int(subprocess.run(['svnlook', 'youngest', repo], stdout=subprocess.PIPE, check=True).stdout)
        for r in ([int(a) for a in sys.argv[3:]] or range(head + 1)):
            sys.stdout.buffer.write(real_listing(repo, r))
