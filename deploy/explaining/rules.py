"""Each fault's rule in a sentence or two, for a person who knows SIRI or GTFS."""

ITEM = {
    "BadField": "A member that is read is missing or has another form. One such member sets its whole item aside, however "
                "many others are right.",
    "AddedJourney": "ExtraJourney is true: the timetable doesn't have this journey, and the gateway carries only trips of the folder.",
    "UnknownJourney": "No trip of trips.txt has this id, or frequencies.txt has the trip: the gateway doesn't carry those.",
    "OutOfWindow": "The service day isn't among those of --from and --days; a server's window moves with the clock and --keep.",
    "NotRunning": "By calendar.txt and calendar_dates.txt the trip doesn't run on this service day.",
    "UnknownStop": "The trip doesn't stop at this stop_id, nor, where a call names it, at another stop of its station (parent_station). "
                   "One such call sets the whole journey aside.",
    "OutOfOrder": "The call matches no stop of the trip after the stop of the call before: calls come in the trip's order, "
                  "the recorded ones first, each stop once.",
    "DelayRange": "The time is over 7 days (604,800 seconds) away from the planned one: probably another service day or a wrong date.",
    "Full": "The gateway keeps its most already: 50,000 journeys in the window, or 5,000 situation numbers since the start.",
    "NoAffects": "The situation names nothing in one of the three ways that are read: Networks..LineRef, StopPoints..StopPointRef, "
                 "VehicleJourneys..FramedVehicleJourneyRef.",
    "UnknownRef": "None of the things that it names is in the folder; the member is that of the first one.",
    "EntityTooLong": "The alert's entity would have over 65,536 bytes: its texts are too long, or it names too many things.",
    "OtherRelation": "The trip or a stop has a schedule_relationship that isn't read (a trip: SCHEDULED and CANCELED; a stop: "
                     "SCHEDULED, SKIPPED and NO_DATA).",
    "NoDate": "start_date isn't YYYYMMDD; or it is missing, and the trip runs neither on the header's local day nor on the day before.",
    "StopMismatch": "The update has a stop_sequence and a stop_id that is neither the trip's at that sequence nor the update's "
                    "assigned_stop_id.",
    "OtherPlace": "The update's assigned_stop_id is no stop of the station of the trip's stop (parent_station in stops.txt).",
    "PlacesTooLong": "The stops at which the journey stops in place of the trip's have ids of over 4,096 bytes together.",
    "NoTime": "The update is SCHEDULED and has neither a time nor a delay.",
}
# What stays when an item is set aside.
STAYS = "The gateway serves what it knew before of that journey or situation until it accepts a later record of it."

BODY = {
    "NotJson": "A delivery is one text of JSON in UTF-8, without a byte order mark and not compressed.",
    "NotDelivery": "The delivery lacks this member above its items, or the member has another form.",
    "Wire": "A feed is a FeedMessage of GTFS Realtime in protobuf, not compressed.",
    "NotText": "A text of the feed isn't UTF-8.",
    "MissingField": "A field that GTFS Realtime 2.0 requires is missing.",
    "EntityTooLong": "An entity of the feed has over 1,048,576 bytes.",
    "Differential": "Only full datasets are read: the feed's header says DIFFERENTIAL.",
    "TooManyCalls": "The journeys of the feed have over 400,000 stops together.",
    "TooLong": "A delivery or a feed has at most 16,777,216 bytes, a zone file 1,048,576.",
}

FOLDER = {
    "NoColumn": "The first row has to name this column; others may stand beside it, in any order.",
    "NotUtf8": "A field that is read isn't UTF-8.",
    "BadField": "The field has another form, or an id is empty.",
    "Limit": "An id has over 200 bytes, a trip over 250 rows, or the file too many rows.",
    "Zones": "All agencies of a folder have one agency_timezone.",
    "Unknown": "The id isn't in the file that it names (routes.txt, trips.txt or stops.txt).",
    "Duplicate": "The id, the service and date, or the trip and sequence stood in an earlier row.",
    "UntimedEnd": "The first and the last stop of a trip need an arrival_time or a departure_time.",
    "TooLong": "The file has over 268,435,456 bytes.",
}
COLUMN = {
    "id": "an id of 1 to 200 bytes",
    "parent": "the stop_id of another row, or nothing",
    "flag": "0 or 1",
    "exception": "1 or 2",
    "date": "a date YYYYMMDD",
    "sequence": "1 to 10 digits, at most 4294967295",
    "time": "H:MM:SS or HH:MM:SS, or nothing",
    "any": "any text",
}

JOURNAL = {
    "NotJournal": "it has 10 bytes or more, and doesn't begin as a journal does: name another file",
    "Damaged": "from that byte on it isn't what was written: see the disk; deploy/journal bodies gives what stands before it",
}

HTTP = {
    "Cut": "The sender ended before as many bytes as its Content-Length says: see why it stopped, and post again.",
    "Length": "Content-Length isn't a number, or stands there twice with different ones.",
    "NeedLength": "There is no Content-Length; a body in chunks is refused, and a proxy can make it whole.",
    "Head": "What came is no request of HTTP/1.",
    "NotFound": "The targets are /gtfs-rt, /siri/et and /siri/sx.",
    "Method": "/gtfs-rt and /siri/et have GET and POST, /siri/sx has POST.",
    "TooLarge": "A body has at most 16,777,216 bytes: post journeys in several deliveries.",
    "TooManyFields": "The head has over 16,384 bytes or over 64 header lines.",
    "Clock": "The machine's clock is outside the years that the gateway serves: set it.",
    "Memory": "The gateway had no memory for this body: post it again.",
    "Journal": "The journal's disk failed: see the disk.",
    "JournalFull": "The journal has no more room: make a shorter one of it, by deploy/journal trim.",
}
