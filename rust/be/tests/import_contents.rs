//! Tests of the attributes that `import` reads from a file's content.

use crate::common::files::Folder;
use std::fs::{self, File};
use std::path::Path;

#[test]
fn mails_have_the_attributes_of_their_heads() {
    let (server, folder) = server!(Folder::with_server());
    for side in ["cur", "new", "tmp"] {
        folder.folder(side);
    }
    let head =
        "From: =?iso-8859-1?q?J=FCrgen?= <j@example.org>\nTo: ann@example.org\nSubject: =?utf-8?b?R3LDvMOfZQ==?=\n\
                Date: Fri, 27 Nov 2026 10:00:00 +0100\n\n";
    folder.file("cur/1:2,S", head);
    // Create a mail that is too large to be read whole.
    let huge = File::create(folder.path("cur/2:2,")).unwrap();
    fs::write(folder.path("cur/2:2,"), head).unwrap();
    huge.set_len(1 << 40).unwrap();
    folder.file("new/3", [&b"Subject: "[..], &[b'x'; 1 << 20]].concat());
    folder.file("new/4", b"\xff\xfe\n: \nFrom\nSubject: =?utf-8?q?=zz?= \xfc\n");
    folder.file("new/5", "");
    folder.file("mail.eml", head);
    assert_eq!(server.import(&folder)[0], 10);
    let mails = |query: &str| {
        let paths = server.paths(query).into_iter();
        paths
            .map(|path| path.file_name().unwrap().to_str().unwrap().to_string())
            .collect::<Vec<_>>()
    };
    assert_eq!(mails("MAIL:from==\"Jürgen*\""), ["1:2,S", "2:2,", "mail.eml"]);
    assert_eq!(mails("MAIL:subject==\"Grüße\" && MAIL:status==New"), ["2:2,"]);
    assert_eq!(mails("MAIL:when==1795770000"), ["1:2,S", "2:2,", "mail.eml"]);
    assert_eq!(mails("MAIL:status==New").len(), 4);
    assert_eq!(mails("BEOS:TYPE==\"text/x-email\"").len(), 6);
    assert_eq!(server.value("MAIL:name", &folder.path("mail.eml")), "Jürgen");
    assert_eq!(server.value("MAIL:subject", &folder.path("new/4")), "=?utf-8?q?=zz?= ü");
    assert_eq!(server.value("MAIL:subject", &folder.path("new/3")).len(), 255);
    // A mail that has been read is renamed, but keeps its node.
    server.done(&["addattr", "mark", "x", &folder.word("new/5")]);
    folder.rename("new/5", "cur/5:2,S");
    assert_eq!(server.import(&folder)[2], 1);
    assert_eq!(server.value("mark", &folder.path("cur/5:2,S")), "x");
    assert_eq!(server.value("MAIL:status", &folder.path("cur/5:2,S")), "Read");
}

/// Names of Ogg files, with the beginnings of their streams and the right type for each.
const OGG: [(&str, &[u8], &str); 7] = [
    ("vorbis.ogg", b"\x01vorbis", "audio/x-vorbis+ogg"),
    ("theora.ogg", b"\x80theora", "video/x-theora+ogg"),
    ("flac.ogg", b"\x7fFLAC", "audio/x-flac+ogg"),
    ("other.OGG", b"other", "audio/ogg"),
    ("speex.oga", b"Speex  ", "audio/x-speex+ogg"),
    ("vorbis.oga", b"\x01vorbis", "audio/x-vorbis+ogg"),
    ("opus.opus", b"OpusHead", "audio/x-opus+ogg"),
];

/// Names of PGP files, with what their first lines say and the right type for each.
const PGP: [(&str, &str, &str); 3] = [
    ("message.pgp", "MESSAGE", "application/pgp-encrypted"),
    ("keys.pgp", "PUBLIC KEY BLOCK", "application/pgp-keys"),
    ("signature.pgp", "SIGNATURE", "application/pgp-signature"),
];

/// Other names that fit several types, with file contents and the right type for each.
const OTHERS: [(&str, &[u8], &str); 18] = [
    ("empty.ogg", b"", "audio/ogg"),
    ("mpsub.sub", b"TITLE=a\nFORMAT=25\n", "text/x-mpsub"),
    ("subviewer.sub", b"[INFORMATION]\n", "text/x-subviewer"),
    ("microdvd.sub", b"{1}{2}a\n", "text/x-microdvd"),
    ("disk.vhd", b"conectix\0\0", "application/x-vhd-disk"),
    ("fixed-disk.vhd", b"\xeb\x63\x90\0", "application/x-vhd-disk"),
    ("source.vhd", b"entity a is\n", "text/x-vhdl"),
    ("designer.ui", b"<ui version=\"4.0\">\n", "application/x-designer"),
    (
        "gtk.ui",
        b"<?xml version=\"1.0\"?>\n<interface>\n",
        "application/x-gtk-builder",
    ),
    ("linguist.ts", b"<!DOCTYPE TS><TS>\n", "text/vnd.trolltech.linguist"),
    ("video.ts", &TRANSPORT, "video/mp2t"),
    ("graph.dot", b"/* a */ digraph { a -> b }\n", "text/vnd.graphviz"),
    (
        "letter.dot",
        b"\xd0\xcf\x11\xe0\xa1\xb1\x1a\xe1",
        "application/msword-template",
    ),
    (
        "list.m3u8",
        b"#EXTM3U\n#EXT-X-TARGETDURATION:10\n",
        "application/vnd.apple.mpegurl",
    ),
    ("music.m3u8", b"#EXTM3U\nsong.ogg\n", "audio/x-mpegurl"),
    ("schema.json", b"{\"$schema\": \"a\"}", "application/schema+json"),
    ("values.json", b"{\"a\": 1}", "application/json"),
    ("run.service", b"[Unit]\n", "text/x-systemd-unit"),
];

/// Packets of 188 bytes, each beginning with a `G`.
const TRANSPORT: [u8; 752] = {
    let mut bytes = [0; 752];
    let mut at = 0;
    while at < bytes.len() {
        bytes[at] = b'G';
        at += 188;
    }
    bytes
};

#[test]
fn the_content_decides_between_the_types_that_a_name_fits() {
    if !Path::new("/usr/share/mime/magic").exists() {
        println!("be, types by contents: skipped, there is no /usr/share/mime/magic");
        return;
    }
    let (server, folder) = server!(Folder::with_server());
    let mut mimes = Vec::new();
    for (name, stream, mime) in OGG {
        folder.file(name, [&b"OggS________________________"[..], stream].concat());
        mimes.push((name, mime));
    }
    for (name, what, mime) in PGP {
        folder.file(name, format!("-----BEGIN PGP {what}-----\n"));
        mimes.push((name, mime));
    }
    for (name, content, mime) in OTHERS {
        folder.file(name, content);
        mimes.push((name, mime));
    }
    server.import(&folder);
    for (name, mime) in mimes {
        assert_eq!(server.value("BEOS:TYPE", &folder.path(name)), mime, "{name}");
    }
}
