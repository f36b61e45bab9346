//! Deliveries of situations.

use crate::fault::{BodyFault, Fault};
use crate::json::{members, Leaf, Needed, Object, Present, Repeated};
use crate::siri::{deliveries_of, service_of, Context};
use crate::time::{read_moment, Day};

members! {
    Service<'a> {
        deliveries: Needed<Delivery<'a>> = "SituationExchangeDelivery",
    }
    Delivery<'a> {
        situations: Object<Situations<'a>> = "Situations",
    }
    Situations<'a> {
        elements: Repeated<Element<'a>> = "PtSituationElement",
    }
    Element<'a> {
        number: Leaf<'a> = "SituationNumber",
        version: Leaf<'a> = "Version",
        progress: Leaf<'a> = "Progress",
        periods: Repeated<ValidityPeriod<'a>> = "ValidityPeriod",
        summary: Leaf<'a> = "Summary",
        description: Leaf<'a> = "Description",
        affects: Object<Affects<'a>> = "Affects",
        equipment: Present = "EquipmentReason",
        environment: Present = "EnvironmentReason",
        personnel: Present = "PersonnelReason",
        miscellaneous: Present = "MiscellaneousReason",
        consequences: Object<Consequences<'a>> = "Consequences",
    }
    ValidityPeriod<'a> {
        start: Leaf<'a> = "StartTime",
        end: Leaf<'a> = "EndTime",
    }
    Affects<'a> {
        networks: Object<Networks<'a>> = "Networks",
        stop_points: Object<StopPoints<'a>> = "StopPoints",
        journeys: Object<VehicleJourneys<'a>> = "VehicleJourneys",
    }
    Networks<'a> {
        networks: Repeated<AffectedNetwork<'a>> = "AffectedNetwork",
    }
    AffectedNetwork<'a> {
        lines: Repeated<AffectedLine<'a>> = "AffectedLine",
    }
    AffectedLine<'a> {
        line: Leaf<'a> = "LineRef",
    }
    StopPoints<'a> {
        points: Repeated<AffectedStopPoint<'a>> = "AffectedStopPoint",
    }
    AffectedStopPoint<'a> {
        stop: Leaf<'a> = "StopPointRef",
    }
    VehicleJourneys<'a> {
        journeys: Repeated<AffectedVehicleJourney<'a>> = "AffectedVehicleJourney",
    }
    AffectedVehicleJourney<'a> {
        framed: Object<Framed<'a>> = "FramedVehicleJourneyRef",
    }
    Framed<'a> {
        day: Leaf<'a> = "DataFrameRef",
        trip: Leaf<'a> = "DatedVehicleJourneyRef",
    }
    Consequences<'a> {
        consequences: Repeated<Consequence<'a>> = "Consequence",
    }
    Consequence<'a> {
        condition: Leaf<'a> = "Condition",
    }
}

#[derive(Clone, Copy)]
pub enum Reference {
    Route(u32),
    Stop(u32),
    Journey(u32, Day),
}

/// Start and end, in seconds since 1970.
pub type Period = (Option<i64>, Option<i64>);

pub struct Situation<'s> {
    pub number: &'s str,
    pub version: u64,
    pub is_served: bool,
    pub periods: Vec<Period>,
    pub references: Vec<Reference>,
    pub unknown_references: u64,
    pub cause: u64,
    pub effect: u64,
    pub summary: Option<&'s str>,
    pub description: Option<&'s str>,
}

pub fn read(body: &[u8]) -> Result<Service<'_>, BodyFault> {
    let service: Service = service_of(body)?;
    let deliveries = deliveries_of(&service.deliveries, "SituationExchangeDelivery")?;
    if deliveries.iter().any(|delivery| matches!(delivery.situations, Object::Wrong)) {
        return Err(BodyFault::NotDelivery("Situations"));
    }
    Ok(service)
}

/// The verdict on each item in document order.
pub fn verdicts<'s>(
    service: &'s Service<'s>,
    context: &'s Context,
) -> impl Iterator<Item = Result<Situation<'s>, Fault>> + 's {
    let deliveries = service.deliveries.0.iter().flat_map(|deliveries| deliveries.0.iter().flatten());
    let groups = deliveries.filter_map(|delivery| delivery.situations.get("Situations").ok().flatten());
    groups.flat_map(|group| group.elements.0.iter()).map(move |item| match item {
        Some(element) => read_situation(element, context),
        None => Err(Fault::BadField("PtSituationElement")),
    })
}

fn read_situation<'s>(element: &'s Element, context: &Context) -> Result<Situation<'s>, Fault> {
    let number = element.number.needed("SituationNumber")?;
    let version = element.version.whole_number("Version")?.unwrap_or(0);
    let progress = element.progress.as_text("Progress")?;
    let periods = read_periods(element, context)?;
    let summary = element.summary.as_text("Summary")?;
    let description = element.description.as_text("Description")?;
    let references = read_references(element, context)?;
    let effect = effect_of(read_condition(element)?);
    let (first, _) = references.first().ok_or(Fault::NoAffects)?;
    let known: Vec<Reference> = references.iter().filter_map(|(_, reference)| *reference).collect();
    if known.is_empty() {
        return Err(Fault::UnknownRef(first));
    }
    let is_hidden = |text: &str| text.eq_ignore_ascii_case("closed") || text.eq_ignore_ascii_case("draft");
    Ok(Situation {
        number,
        version,
        is_served: !progress.is_some_and(is_hidden),
        periods,
        unknown_references: (references.len() - known.len()) as u64,
        references: known,
        cause: cause_of(element),
        effect,
        summary,
        description,
    })
}

fn cause_of(element: &Element) -> u64 {
    let reasons =
        [(&element.equipment, 3), (&element.environment, 8), (&element.personnel, 2), (&element.miscellaneous, 2)];
    reasons.iter().find(|(reason, _)| reason.0).map_or(1, |(_, cause)| *cause)
}

fn effect_of(condition: Option<&str>) -> u64 {
    match condition {
        Some("cancelled" | "noService") => 1,
        Some("delayed") => 3,
        Some("diverted") => 4,
        Some("additionalService") => 5,
        Some("altered" | "disrupted") => 6,
        _ => 8,
    }
}

/// The condition of the first consequence.
fn read_condition<'s>(element: &'s Element) -> Result<Option<&'s str>, Fault> {
    let Some(consequences) = element.consequences.get("Consequences")? else { return Ok(None) };
    match consequences.consequences.objects("Consequence")?.next() {
        Some(first) => first.condition.as_text("Condition"),
        None => Ok(None),
    }
}

/// All starts are read before all ends; a period with neither isn't kept.
fn read_periods(element: &Element, context: &Context) -> Result<Vec<Period>, Fault> {
    let second =
        |leaf: &Leaf, name| Ok(leaf.read(name, |text| read_moment(text, &context.zone))?.map(|instant| instant.secs));
    let periods: Vec<&ValidityPeriod> = element.periods.objects("ValidityPeriod")?.collect();
    let starts = periods.iter().map(|period| second(&period.start, "StartTime")).collect::<Result<Vec<_>, _>>()?;
    let ends = periods.iter().map(|period| second(&period.end, "EndTime")).collect::<Result<Vec<_>, _>>()?;
    Ok(starts.into_iter().zip(ends).filter(|period| *period != (None, None)).collect())
}

/// Each reference by the member that names it, and what it is where it is known.
fn read_references(element: &Element, context: &Context) -> Result<Vec<(&'static str, Option<Reference>)>, Fault> {
    let mut references = Vec::new();
    let Some(affects) = element.affects.get("Affects")? else { return Ok(references) };
    let table = &context.table;
    if let Some(networks) = affects.networks.get("Networks")? {
        let networks: Vec<_> = networks.networks.objects("AffectedNetwork")?.collect();
        let mut lines = Vec::new();
        for network in networks {
            lines.extend(network.lines.objects("AffectedLine")?);
        }
        for line in lines {
            if let Some(id) = line.line.as_text("LineRef")? {
                references.push(("LineRef", table.route_ids.find(id.as_bytes()).map(Reference::Route)));
            }
        }
    }
    if let Some(points) = affects.stop_points.get("StopPoints")? {
        for point in points.points.objects("AffectedStopPoint")? {
            if let Some(id) = point.stop.as_text("StopPointRef")? {
                references.push(("StopPointRef", table.stop_ids.find(id.as_bytes()).map(Reference::Stop)));
            }
        }
    }
    if let Some(journeys) = affects.journeys.get("VehicleJourneys")? {
        let mut frames = Vec::new();
        for journey in journeys.journeys.objects("AffectedVehicleJourney")? {
            frames.extend(journey.framed.get("FramedVehicleJourneyRef")?);
        }
        let mut days = Vec::with_capacity(frames.len());
        for frame in &frames {
            let day = frame.day.read("DataFrameRef", |text| Day::read_either(text.as_bytes()))?;
            days.push(day.ok_or(Fault::BadField("DataFrameRef"))?);
        }
        for (frame, day) in frames.iter().zip(days) {
            let trip = table.find_trip(frame.trip.needed("DatedVehicleJourneyRef")?);
            references.push(("DatedVehicleJourneyRef", trip.map(|trip| Reference::Journey(trip, day))));
        }
    }
    Ok(references)
}
