//! The names of entry types and fields that are in use, in alphabetical order.
//!
//! They are those of BibLaTeX's data model (its manual, "Entry Types" and "Entry Fields", and the file blx-dm.def
//! of its package), with its aliases, which are BibTeX's own names; and what catalogues, journals and programs for
//! bibliographies add. What is misspelt is only ever taken for a name of the first lists.

/// The types that a misspelt one may mean.
#[rustfmt::skip]
pub(crate) const TYPES: [&str; 40] = [
    "article", "artwork", "bibnote", "book", "bookinbook", "booklet", "collection", "commentary",
    "conference", "dataset", "electronic", "inbook", "incollection", "inproceedings", "inreference",
    "jurisdiction", "legislation", "manual", "mastersthesis", "misc", "mvbook", "mvcollection",
    "mvproceedings", "mvreference", "online", "patent", "performance", "periodical", "phdthesis",
    "proceedings", "reference", "report", "software", "standard", "suppbook", "suppcollection",
    "suppperiodical", "techreport", "thesis", "unpublished",
];

/// Types that are known, but that others are too near to or nobody needs to be led to.
#[rustfmt::skip]
pub(crate) const OTHER_TYPES: [&str; 55] = [
    "abbreviation", "acronym", "archival", "archives", "artifact", "audio", "bill", "blog",
    "booksection", "chapter", "codefragment", "control", "customa", "customb", "customc", "customd",
    "custome", "customf", "databook", "dates", "ebook", "electronicbook", "entry", "hearing",
    "ieeetranbstctl", "image", "index", "internet", "journal", "lecture", "legal", "letter",
    "magazine", "map", "movie", "music", "newsarticle", "newspaper", "person", "podcast",
    "preprint", "presentation", "reprint", "review", "set", "slides", "softwaremodule",
    "softwareversion", "symbol", "talk", "video", "webpage", "website", "www", "xdata",
];

/// The fields that a misspelt one may mean.
#[rustfmt::skip]
pub(crate) const FIELDS: [&str; 92] = [
    "abstract", "addendum", "address", "afterword", "annotation", "annotator", "annote",
    "archiveprefix", "author", "authortype", "bookauthor", "bookpagination", "booksubtitle",
    "booktitle", "booktitleaddon", "chapter", "commentator", "crossref", "edition", "editor",
    "editortype", "entryset", "entrysubtype", "eprint", "eprintclass", "eprinttype", "eventdate",
    "eventtitle", "eventtitleaddon", "foreword", "howpublished", "hyphenation", "indexsorttitle",
    "indextitle", "institution", "introduction", "isbn", "issn", "issuesubtitle", "issuetitle",
    "issuetitleaddon", "journal", "journalsubtitle", "journaltitle", "journaltitleaddon",
    "keywords", "langid", "langidopts", "language", "location", "mainsubtitle", "maintitle",
    "maintitleaddon", "month", "nameaddon", "note", "number", "organization", "origdate",
    "origlanguage", "origlocation", "origpublisher", "origtitle", "pages", "pagetotal",
    "pagination", "primaryclass", "publisher", "pubstate", "relatedoptions", "relatedstring",
    "relatedtype", "reprinttitle", "school", "series", "shortauthor", "shorteditor", "shorthand",
    "shorthandintro", "shortjournal", "shortseries", "shorttitle", "sortshorthand", "sorttitle",
    "subtitle", "title", "titleaddon", "translator", "urldate", "version", "volume", "year",
];

/// Fields that are known, but that others are too near to or nobody needs to be led to.
#[rustfmt::skip]
pub(crate) const OTHER_FIELDS: [&str; 250] = [
    "abbrev", "accessed", "acmid", "adsnote", "adsurl", "affiliation", "annotations", "articleno",
    "arxiv", "arxivid", "asin", "bibcode", "bibdate", "bibsource", "biburl", "booktype", "citation",
    "cited", "city", "classification", "coden", "collaboration", "comment", "comments", "contents",
    "copyright", "country", "creationdate", "date", "dates", "day", "description", "doi", "editora",
    "editoratype", "editorb", "editorbtype", "editorc", "editorctype", "editorial", "ee", "eid",
    "eissn", "email", "encoding", "endday", "endhour", "endminute", "endmonth", "endsecond",
    "endtimezone", "endyear", "endyeardivision", "entrytype", "eprints", "eventday", "eventendday",
    "eventendhour", "eventendminute", "eventendmonth", "eventendsecond", "eventendtimezone",
    "eventendyear", "eventendyeardivision", "eventhour", "eventminute", "eventmonth", "eventsecond",
    "eventtimezone", "eventyear", "eventyeardivision", "execute", "fax", "file", "folder", "format",
    "fulltext", "gender", "group", "groups", "holder", "hour", "howcited", "identifier", "ids",
    "image", "index", "institute", "isan", "isbns", "ismn", "isrn", "issue", "issued", "issueyear",
    "iswc", "journalabbr", "journalabbreviation", "key", "keyword", "label", "lang", "lastaccessed",
    "lastchecked", "lccn", "library", "license", "link", "lista", "listb", "listc", "listd",
    "liste", "listf", "local", "mailto", "meeting", "mid", "minute", "modificationdate", "mrclass",
    "mrnumber", "mrreviewer", "namea", "nameatype", "nameb", "namebtype", "namec", "namectype",
    "names", "notes", "numberofpages", "numpages", "options", "organizer", "origday", "origendday",
    "origendhour", "origendminute", "origendmonth", "origendsecond", "origendtimezone",
    "origendyear", "origendyeardivision", "orighour", "origminute", "origmonth", "origsecond",
    "origtimezone", "origyear", "origyeardivision", "owner", "pagecount", "paper", "part", "pdf",
    "people", "pii", "place", "pmc", "pmcid", "pmid", "ppn", "presort", "price", "printed",
    "priority", "project", "publication", "published", "publishedonline", "qualityassured",
    "ranking", "rating", "read", "readstatus", "received", "references", "related", "relation",
    "relations", "remark", "remarks", "reviewed", "reviewer", "reviews", "searchkey", "second",
    "section", "sender", "slaccitation", "sortkey", "sortname", "sortyear", "source", "sponsor",
    "status", "subject", "submitted", "summary", "swhid", "tableofcontents", "tag", "tags", "text",
    "timestamp", "timezone", "topic", "translation", "type", "uri", "url", "urlaccessdate",
    "urlday", "urlendday", "urlendhour", "urlendminute", "urlendmonth", "urlendsecond",
    "urlendtimezone", "urlendyear", "urlendyeardivision", "urlhour", "urlminute", "urlmonth",
    "urls", "urlsecond", "urltimezone", "urlyear", "urlyeardivision", "urn", "user", "usera",
    "userb", "userc", "userd", "usere", "userf", "username", "venue", "verba", "verbb", "verbc",
    "visited", "volumes", "website", "xdata", "xref", "yeardivision", "zblnumber",
];
