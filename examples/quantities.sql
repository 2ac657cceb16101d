-- What is in a building, out of the database of its IFC file:
--   p21export IFC2X3.exp house.ifc --sqlite house.db --all-entities && sqlite3 -box house.db < examples/quantities.sql

-- The walls of each storey that are extruded: the length is that of the axis, the height that of the extruded solid, or of the one that was cut.
WITH RECURSIVE
  solid AS (
    SELECT wall.id AS wall, item.target AS solid
    FROM "IfcWallStandardCase" AS wall
    JOIN "reference" AS shape ON shape.source = wall."Representation" AND shape.attribute = 'Representations'
    JOIN "IfcShapeRepresentation" AS body ON body.id = shape.target AND body."RepresentationIdentifier" = 'Body'
    JOIN "reference" AS item ON item.source = body.id AND item.attribute = 'Items'
    UNION ALL
    SELECT solid.wall, cut."FirstOperand" FROM solid JOIN "IfcBooleanClippingResult" AS cut ON cut.id = solid.solid
  ),
  height AS (
    SELECT wall, max(extruded."Depth") AS height FROM solid JOIN "IfcExtrudedAreaSolid" AS extruded ON extruded.id = solid.solid GROUP BY wall
  ),
  point AS (
    SELECT wall.id AS wall, line.position AS place, json_extract(point."Coordinates", '$[0]') AS x, json_extract(point."Coordinates", '$[1]') AS y
    FROM "IfcWallStandardCase" AS wall
    JOIN "reference" AS shape ON shape.source = wall."Representation" AND shape.attribute = 'Representations'
    JOIN "IfcShapeRepresentation" AS axis ON axis.id = shape.target AND axis."RepresentationIdentifier" = 'Axis'
    JOIN "reference" AS item ON item.source = axis.id AND item.attribute = 'Items'
    JOIN "reference" AS line ON line.source = item.target AND line.attribute = 'Points'
    JOIN "IfcCartesianPoint" AS point ON point.id = line.target
  ),
  length AS (
    SELECT one.wall, sum(sqrt((next.x - one.x) * (next.x - one.x) + (next.y - one.y) * (next.y - one.y))) AS length
    FROM point AS one JOIN point AS next ON next.wall = one.wall AND next.place = one.place + 1 GROUP BY one.wall
  )
SELECT storey."Name" AS storey, count(*) AS walls, round(sum(length), 1) AS length, round(min(height), 2) AS lowest, round(max(height), 2) AS highest, round(sum(length * height), 1) AS area
FROM "IfcRelContainedInSpatialStructure" AS contained
JOIN "IfcBuildingStorey" AS storey ON storey.id = contained."RelatingStructure"
JOIN "reference" AS inside ON inside.source = contained.id AND inside.attribute = 'RelatedElements'
JOIN height ON height.wall = inside.target
JOIN length ON length.wall = inside.target
GROUP BY storey.id ORDER BY storey."Elevation";

-- The elements of each storey by kind.
SELECT storey."Name" AS storey, element.entity, count(*) AS number
FROM "IfcRelContainedInSpatialStructure" AS contained
JOIN "IfcBuildingStorey" AS storey ON storey.id = contained."RelatingStructure"
JOIN "reference" AS inside ON inside.source = contained.id AND inside.attribute = 'RelatedElements'
JOIN "id_map" AS element ON element.id = inside.target
WHERE element.id IN (SELECT id FROM "IfcElement")
GROUP BY storey.id, element.entity ORDER BY storey."Elevation", number DESC;

-- The doors and windows by size.
SELECT entity, "OverallWidth" AS width, "OverallHeight" AS height, count(*) AS number
FROM (SELECT 'door' AS entity, "OverallWidth", "OverallHeight" FROM "IfcDoor" UNION ALL SELECT 'window', "OverallWidth", "OverallHeight" FROM "IfcWindow")
GROUP BY entity, width, height ORDER BY entity, number DESC;

-- The ten instances that are referred to most.
SELECT target AS id, entity, count(*) AS "references"
FROM "reference" JOIN "id_map" ON id = target GROUP BY target ORDER BY count(*) DESC, target LIMIT 10;
