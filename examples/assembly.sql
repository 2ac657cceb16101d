-- The tree of an assembly, out of the database of its STEP file:
--   p21export ap203e2.exp as1.stp --sqlite as1.db --all-entities && sqlite3 as1.db < examples/assembly.sql
WITH RECURSIVE
  part AS (
    SELECT definition.id, product."product.id" AS number, product."name"
    FROM "product_definition" AS definition
    JOIN "product_definition_formation" AS version ON version.id = definition."formation"
    JOIN "product" ON product.id = version."of_product"
  ),
  tree AS (
    SELECT part.id, part."name", 0 AS depth, part."name" AS path FROM part
    WHERE part.id NOT IN (SELECT "related_product_definition" FROM "next_assembly_usage_occurrence")
    UNION ALL
    SELECT part.id, part."name", tree.depth + 1, tree.path || '/' || part."name" || printf('#%06d', used.id)
    FROM tree
    JOIN "next_assembly_usage_occurrence" AS used ON used."relating_product_definition" = tree.id
    JOIN part ON part.id = used."related_product_definition"
  )
SELECT printf('%*s%s', 2 * depth, '', "name") AS part FROM tree ORDER BY path;
